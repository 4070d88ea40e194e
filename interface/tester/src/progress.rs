//! How far a long command has come, on standard error.

use std::io::{self, IsTerminal};
use std::time::{Duration, Instant};

use crate::names::points;

/// How often a word is said: on a terminal, where it takes the place of the last one, and elsewhere, where it is a line.
const TERMINAL: Duration = Duration::from_millis(500);
const ELSEWHERE: Duration = Duration::from_secs(10);

/// How often a line for scripts is printed.
const SCRIPTS: Duration = Duration::from_millis(100);

/// To whom it is told: a person, a script that wants a line `progress TRIED TOTAL`, or nobody.
#[derive(Clone, Copy, PartialEq)]
pub enum Kind {
    Words,
    Lines,
    Nothing,
}

/// What is tried, how much of it has been, and when a word was last said.
pub struct Progress {
    total: usize,
    tried: usize,
    terminal: bool,
    kind: Kind,
    last: Instant,
    said: bool,
}

impl Progress {
    /// Nothing tried yet of so many.
    pub fn new(total: usize, kind: Kind) -> Progress {
        Progress { total, tried: 0, terminal: io::stderr().is_terminal(), kind, last: Instant::now(), said: false }
    }

    /// One more is tried.
    pub fn step(&mut self) {
        self.tried += 1;
        let pause = match (self.kind, self.terminal) {
            (Kind::Nothing, _) => return,
            (Kind::Lines, _) => SCRIPTS,
            (Kind::Words, true) => TERMINAL,
            (Kind::Words, false) => ELSEWHERE,
        };
        if self.last.elapsed() < pause {
            return;
        }
        let word = format!("tester: {} of {} changes tried", points(self.tried as i64), points(self.total as i64));
        match (self.kind, self.terminal) {
            (Kind::Lines, _) => eprintln!("progress {} {}", self.tried, self.total),
            (_, true) => eprint!("\r{word}"),
            _ => eprintln!("{word}"),
        }
        (self.last, self.said) = (Instant::now(), self.kind == Kind::Words);
    }

    /// All is tried: the word is taken from a terminal.
    pub fn finish(self) {
        if self.terminal && self.said {
            eprint!("\r\x1b[K");
        }
    }
}
