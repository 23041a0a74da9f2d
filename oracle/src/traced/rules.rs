//! The rule by which a point counts as one of an arc.

/// The tests of 000's `usable_arc_param`, in its order.
#[derive(Debug, Copy, Clone, PartialEq, Eq, Hash)]
pub enum Rule {
    /// Within ε of the start; also where it is within ε of the end too.
    StartMatched,
    EndMatched,
    /// Inside the sweep, both bounds with it; also where the way travelled is no number.
    Inside,
    /// Past the end by no more than ε.
    PastEnd,
}

impl Rule {
    pub const ALL: [Self; 4] = [
        Self::StartMatched,
        Self::EndMatched,
        Self::Inside,
        Self::PastEnd,
    ];

    pub fn number(self) -> u32 {
        match self {
            Self::StartMatched => 1,
            Self::EndMatched => 2,
            Self::Inside => 3,
            Self::PastEnd => 4,
        }
    }

    pub fn name(self) -> &'static str {
        match self {
            Self::StartMatched => "start",
            Self::EndMatched => "end",
            Self::Inside => "inside",
            Self::PastEnd => "past",
        }
    }

    /// The number of a rule or, of a side that is no trimmed arc, of none.
    pub fn number_of(rule: Option<Self>) -> u32 {
        rule.map_or(0, Self::number)
    }

    /// The name of a rule or, of a side that is no trimmed arc, of none.
    pub fn name_of(rule: Option<Self>) -> &'static str {
        rule.map_or("none", Self::name)
    }

    /// The rule, or none, of that name.
    pub fn named(name: &str) -> Option<Option<Self>> {
        let rules = Self::ALL.map(Some).into_iter().chain([None]);
        rules.into_iter().find(|rule| Self::name_of(*rule) == name)
    }
}

/// How often each rule granted a trimmed arc, by the kinds of the two sides.
#[derive(Default)]
pub struct RuleTable {
    line_arc: [u64; 4],
    arc_line: [u64; 4],
    /// By the current side's rule, then by the next one's.
    arc_arc: [[u64; 4]; 4],
}

impl RuleTable {
    /// Counts the rules of a current side and the next one; where both are none, nothing.
    pub fn add(&mut self, rules: [Option<Rule>; 2]) {
        match rules.map(|rule| rule.map(|rule| rule as usize)) {
            [None, None] => {}
            [None, Some(next)] => self.line_arc[next] += 1,
            [Some(current), None] => self.arc_line[current] += 1,
            [Some(current), Some(next)] => self.arc_arc[current][next] += 1,
        }
    }

    /// For each side that can be an arc the counts by rule.
    pub fn sides(&self) -> [(&'static str, [u64; 4]); 4] {
        let current = self.arc_arc.map(|counts| counts.iter().sum());
        let next = [0, 1, 2, 3].map(|rule| self.arc_arc.iter().map(|counts| counts[rule]).sum());
        [
            ("line/arc next", self.line_arc),
            ("arc/line current", self.arc_line),
            ("arc/arc current", current),
            ("arc/arc next", next),
        ]
    }

    /// For each rule of the current of two arcs the counts by the next one's.
    pub fn pairs(&self) -> [(&'static str, [u64; 4]); 4] {
        Rule::ALL.map(|rule| (rule.name(), self.arc_arc[rule as usize]))
    }

    /// One line a side, unless it has none.
    pub fn print(&self, name: &str) {
        for (side, counts) in self.sides() {
            if counts != [0; 4] {
                println!("  {name:18} {side:18}{}", columns(counts));
            }
        }
    }

    /// One line for each rule of the current side, unless there is none of two arcs.
    pub fn print_pairs(&self, name: &str) {
        if self.arc_arc != [[0; 4]; 4] {
            for (rule, counts) in self.pairs() {
                println!("  {name:18} {rule:18}{}", columns(counts));
            }
        }
    }
}

fn columns(counts: [u64; 4]) -> String {
    counts.map(|count| format!(" {count:>9}")).concat()
}
