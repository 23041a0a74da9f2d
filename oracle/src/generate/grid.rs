//! All jobs of two and three vertices over a small grid.

use crate::stage::Job;

const EPS: f64 = 1e-5;

struct Grid {
    xs: &'static [f64],
    ys: &'static [f64],
    bulges: &'static [f64],
    offsets: &'static [f64],
}

/// Three by three points.
const ROUND: Grid = Grid {
    xs: &[0.0, 1.0, 2.0],
    ys: &[0.0, 1.0, 2.0],
    bulges: &[0.0, 1.0, -1.0, 0.5, -0.25],
    offsets: &[1.0, -1.0, 0.5, -2.0, 0.0],
};

/// Points that are equal as two zeros, as near as doubles can be, within ε, or well apart.
const CLOSE: Grid = Grid {
    xs: &[0.0, -0.0, 6e-6, 1.0],
    ys: &[0.0, f64::from_bits(1), 1.0],
    bulges: &[0.0, 1.0, 4e5, -1e9],
    offsets: &[1.0, -1.0, 0.5, 0.0],
};

/// Hands out each such job once.
pub fn each_short_job(take: impl FnMut(Job)) {
    ROUND.each(take);
}

/// Hands out each such job over points that lie close together.
pub fn each_close_job(take: impl FnMut(Job)) {
    CLOSE.each(take);
}

impl Grid {
    fn each(&self, mut take: impl FnMut(Job)) {
        let vertices = self.xs.len() * self.ys.len() * self.bulges.len();
        for v in [2, 3] {
            for code in 0..vertices.pow(v) {
                let source = self.source(code, v);
                for offset in self.offsets {
                    for closed in [false, true] {
                        // The last bulge of an open job is never read.
                        if closed || source.last() == Some(&0.0) {
                            take(Job::new(closed, *offset, EPS, source.clone()));
                        }
                    }
                }
            }
        }
    }

    fn source(&self, mut code: usize, v: u32) -> Vec<f64> {
        let mut digit = |numbers: &[f64]| {
            let number = numbers[code % numbers.len()];
            code /= numbers.len();
            number
        };
        let vertex = |_| [self.xs, self.ys, self.bulges].map(&mut digit);
        (0..v).flat_map(vertex).collect()
    }
}
