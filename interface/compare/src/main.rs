//! Compares the linked archive with the other scorer: `compare COUNT SEED [LOGS]`.
//! COUNT hands, LOGS logs (a thousandth of COUNT, at least 64, where not given). Exit 1 if anything differs, or a case that 64 logs
//! have to meet was not met.

mod buffers;
mod cards;
mod claims;
mod hands;
mod lines;
mod logs;
mod readings;
mod ready;
mod report;
mod rotations;
mod said;
mod slips;
mod unfinished;
mod waits;

// The generators of random entries and positions that the other scorer's own tests use, and the cases that these have to meet.
#[path = "../../../other_scorer/tests/chance/cases.rs"]
mod cases;
#[path = "../../../other_scorer/tests/chance/mod.rs"]
mod chance;
#[path = "../../../other_scorer/tests/chance/positions.rs"]
mod positions;

use std::{env, process::ExitCode, time::Instant};

use other_scorer::rng::Rng;
use report::Report;

/// Runs the comparison; whether nothing differs and all is met.
fn run(count: usize, seed: u64, logs: usize) -> bool {
    let mut report = Report::default();
    let mut rng = Rng::new(seed);
    let start = Instant::now();
    hands::run(&mut report, &mut rng, count);
    let after_hands = start.elapsed();
    cards::run(&mut report, &mut rng);
    lines::run(&mut report, &mut rng, count / 10);
    said::run(&mut report, &mut rng, count / 10);
    logs::run(&mut report, &mut rng, logs);
    let (hands, all) = (after_hands.as_secs(), start.elapsed().as_secs());
    println!("seed {seed}: {count} hands in {hands} s; with {logs} logs {all} s");
    report.print()
}

/// Exit code 0: nothing differs; 1: something does, or is not met; 2: wrong arguments.
fn main() -> ExitCode {
    let numbers: Result<Vec<usize>, _> = env::args().skip(1).map(|word| word.parse()).collect();
    let (count, seed, logs) = match numbers.as_deref() {
        Ok([count, seed]) => (*count, *seed, (*count / 1000).max(64)),
        Ok([count, seed, logs]) => (*count, *seed, *logs),
        _ => {
            eprintln!("compare COUNT SEED [LOGS]");
            return ExitCode::from(2);
        }
    };
    if run(count, seed as u64, logs) {
        ExitCode::SUCCESS
    } else {
        ExitCode::from(1)
    }
}
