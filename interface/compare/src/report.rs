//! What was compared, counted by name, what had to be met, and what differs.

use std::collections::BTreeMap;
use std::fmt::Debug;

use archive::Differences;

/// Counts under a section's name and a label, cases that have to be met, and what differs.
#[derive(Default)]
pub struct Report {
    counts: BTreeMap<&'static str, BTreeMap<u16, u64>>,
    met: BTreeMap<&'static str, u64>,
    pub differences: Differences,
}

impl Report {
    /// Counts one comparison.
    pub fn count(&mut self, section: &'static str, label: impl Into<u16>) {
        *self.counts.entry(section).or_default().entry(label.into()).or_default() += 1;
    }

    /// Has a case to be met.
    pub fn need(&mut self, case: &'static str) {
        self.met.entry(case).or_default();
    }

    /// Counts a case that was met.
    pub fn meet(&mut self, case: &'static str) {
        *self.met.entry(case).or_default() += 1;
    }

    /// Compares two values and gives whether they are equal; keeps a difference with its input.
    pub fn same<T: PartialEq + Debug>(&mut self, what: &str, archive: T, other: T, input: impl FnOnce() -> String) -> bool {
        self.differences.same(what, archive, other, input)
    }

    /// Prints the counts, the cases, the first differences and, last, how many differ; whether none does and every case was met.
    pub fn print(&self) -> bool {
        for (section, labels) in &self.counts {
            let list: Vec<String> = labels.iter().map(|(label, n)| format!("{label}: {n}")).collect();
            println!("{section}  {}", list.join(", "));
        }
        self.met.iter().for_each(|(case, n)| println!("{case}: {n}"));
        let missed: Vec<&str> = self.met.iter().filter(|(_, n)| **n == 0).map(|(case, _)| *case).collect();
        missed.iter().for_each(|case| println!("not met: {case}"));
        for difference in &self.differences.first {
            println!("difference: {difference}");
        }
        println!("{} differ", self.differences.count);
        self.differences.count == 0 && missed.is_empty()
    }
}
