//! What was measured, as tables.
use crate::measure::{Case, Figures, BEFORE, PLAIN, PROVED, WALK};
use bench::drawings::{Kind, KINDS};

/// A line for each job of a kind with v vertices.
pub fn by_job(cases: &[Case], kind: Kind, v: usize) {
    let cases = of(cases, kind, v);
    let title = format!("{}, v = {v}", kind.0);
    header(&format!("{title:<28}flagged atans"), &cases);
    for case in &cases {
        let (title, atans) = (case.title(), case.atans());
        let label = format!("{title:<26}{:>7} {atans:>5.2}", case.flagged);
        show(&label, &case.figures());
    }
    last_lines(&cases);
}

/// A line for each drawing of a kind with v vertices: the mean of both sides.
pub fn by_drawing(cases: &[Case], kind: Kind, v: usize) {
    let cases = of(cases, kind, v);
    header(&format!("{}, v = {v}, mean of both sides", kind.0), &cases);
    for both in cases.chunk_by(|a, b| a.shape.name == b.shape.name) {
        let shape = both[0].shape;
        let label = format!("{} {} ±{}", shape.name, shape.ends(), shape.offset);
        show(&label, &mean(both));
    }
    last_lines(&cases);
}

/// The last drawing of a kind, offset to its left, against the count of vertices.
pub fn growth(cases: &[Case], (kind, shapes): Kind) {
    let shape = shapes.last().expect("a kind has drawings");
    let mut cases: Vec<_> = cases
        .iter()
        .filter(|case| case.kind == kind && case.shape.name == shape.name && case.offset() > 0.0)
        .collect();
    cases.sort_by_key(|case| case.v);
    header(&format!("{kind}, {}: v", cases[0].title()), &cases);
    for case in &cases {
        show(&case.v.to_string(), &case.figures());
    }
}

/// The proved side's time by another's: the mean of each kind and its worst job, by v. `pick` takes
/// that ratio from a job's figures.
pub fn summary(cases: &[Case], name: &str, sizes: &[usize], pick: fn(&Figures) -> f64) {
    let columns = KINDS.map(|(kind, _)| format!("{kind:>8} mean  worst"));
    println!("\n{name:<28}{}", columns.concat());
    for v in sizes {
        let cells = KINDS.map(|kind| {
            let cases = of(cases, kind, *v);
            let (mean, (_, worst)) = (pick(&mean(&cases)), worst(&cases, pick));
            format!("{mean:>13.2}{worst:>7.2}")
        });
        println!("{:<28}{}", format!("v = {v}"), cells.concat());
    }
}

fn of(cases: &[Case], (kind, _): Kind, v: usize) -> Vec<&Case> {
    let wanted = |case: &&Case| case.kind == kind && case.v == v;
    cases.iter().filter(wanted).collect()
}

fn mean(cases: &[&Case]) -> Figures {
    let figures: Vec<_> = cases.iter().map(|case| case.figures()).collect();
    Figures::mean(&figures)
}

/// The job with the highest ratio, and that ratio.
fn worst<'a>(cases: &[&'a Case], pick: fn(&Figures) -> f64) -> (&'a Case, f64) {
    let ratios = cases.iter().map(|&case| (case, pick(&case.figures())));
    ratios
        .max_by(|a, b| a.1.total_cmp(&b.1))
        .expect("a table has jobs")
}

fn header(label: &str, cases: &[&Case]) {
    print!("\n{label:<42}  proved     000    walk   /000  quiet  /walk");
    print!("  |  least     000    walk   /000");
    if cases[0].figures().median.len() > BEFORE {
        print!("  | before  now/before  quiet");
    }
    println!();
}

fn show(label: &str, figures: &Figures) {
    let Figures {
        median,
        ratio,
        quiet,
        least,
        ..
    } = figures;
    print!("  {label:<40}{}", times(median));
    print!(
        "{:>7.2}{:>7.2}{:>7.2}",
        ratio[PLAIN], quiet[PLAIN], ratio[WALK]
    );
    print!(
        "  |{}{:>7.2}",
        &times(least)[1..],
        least[PROVED] / least[PLAIN]
    );
    if let Some(before) = median.get(BEFORE) {
        print!(
            "  |{before:>7.1}{:>12.2}{:>7.2}",
            ratio[BEFORE], quiet[BEFORE]
        );
    }
    println!();
}

fn times(of: &[f64]) -> String {
    format!("{:>8.1}{:>8.1}{:>8.1}", of[PROVED], of[PLAIN], of[WALK])
}

fn last_lines(cases: &[&Case]) {
    show("mean", &mean(cases));
    let (case, ratio) = worst(cases, |figures| figures.ratio[PLAIN]);
    println!("  worst /000: {ratio:.2}, {}", case.title());
}
