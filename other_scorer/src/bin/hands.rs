//! Writes a file of scored hands and prints what they cover: `hands SEED COUNT OUT`.

use std::{env, fs, process::ExitCode};

use other_scorer::rng::Rng;
use other_scorer::survey::Survey;
use other_scorer::vector::{make, LENGTH};

/// Makes the vectors, writes the file, prints the coverage.
fn run(seed: u64, count: usize, out: &str) -> std::io::Result<bool> {
    let mut rng = Rng::new(seed);
    let mut survey = Survey::new();
    let mut file = Vec::with_capacity(LENGTH * count);
    for index in 0..count {
        let vector = make(&mut rng, index);
        survey.note(&vector);
        file.extend(vector.bytes());
    }
    fs::write(out, file)?;
    println!("seed {seed}, {count} vectors of {LENGTH} bytes");
    let whole = survey.report(count as u64 / 1000);
    Ok(whole)
}

/// Exit code 0: written and coverage whole; 1: coverage short or not written; 2: wrong arguments.
fn main() -> ExitCode {
    let arguments: Vec<String> = env::args().skip(1).collect();
    let [seed, count, out] = arguments.as_slice() else {
        eprintln!("hands SEED COUNT OUT");
        return ExitCode::from(2);
    };
    let (Ok(seed), Ok(count)) = (seed.parse(), count.parse()) else {
        eprintln!("SEED and COUNT are numbers");
        return ExitCode::from(2);
    };
    match run(seed, count, out) {
        Ok(true) => ExitCode::SUCCESS,
        Ok(false) => ExitCode::from(1),
        Err(error) => {
            eprintln!("{out}: {error}");
            ExitCode::from(1)
        }
    }
}
