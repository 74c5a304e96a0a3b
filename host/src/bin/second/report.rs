//! Counts what was compared, and prints a row for each call and the sum of all.

/// How many cases were compared, and how many of them differ.
#[derive(Clone, Copy, Default)]
pub struct Tally {
    pub compared: usize,
    pub differ: usize,
}

impl Tally {
    pub fn add(&mut self, same: bool) {
        self.compared += 1;
        self.differ += usize::from(!same);
    }
}

pub struct Report {
    sum: Tally,
}

impl Report {
    pub fn start() -> Report {
        println!("{:<24} {:<28} {:>8} {:>8}", "call", "compared with", "compared", "differ");
        Report { sum: Tally::default() }
    }

    pub fn row(&mut self, name: &str, method: &str, tally: Tally) {
        println!("{name:<24} {method:<28} {:>8} {:>8}", tally.compared, tally.differ);
        self.sum.compared += tally.compared;
        self.sum.differ += tally.differ;
    }

    /// Whether nothing differs.
    pub fn end(&self) -> bool {
        println!("{} compared, {} differ", self.sum.compared, self.sum.differ);
        self.sum.differ == 0
    }
}
