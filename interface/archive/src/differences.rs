//! What the archive and the other scorer do not answer alike.

use std::fmt::Debug;

/// The most that are kept in words.
const KEPT: usize = 5;

/// The number of differences, and the first ones in words.
#[derive(Default)]
pub struct Differences {
    pub count: u64,
    pub first: Vec<String>,
}

impl Differences {
    /// Compares two answers and gives whether they are equal; keeps a difference with its input.
    pub fn same<T: PartialEq + Debug>(&mut self, what: &str, archive: T, other: T, input: impl FnOnce() -> String) -> bool {
        if archive == other {
            return true;
        }
        self.count += 1;
        if self.first.len() < KEPT {
            let input = input();
            self.first.push(format!("{what}\n input   {input}\n archive {archive:?}\n other   {other:?}"));
        }
        false
    }
}
