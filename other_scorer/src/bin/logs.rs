//! Writes an example log and, beside it, what program tally prints: `logs SEED OUT [deal|hands]`.
//! The text's name is OUT with the ending txt. The last word says how the game ends.

use std::{env, fs, path::Path, process::ExitCode};

use other_scorer::example::survey::survey;
use other_scorer::example::{example, End};
use other_scorer::log::tally_lines;

/// Writes both files and prints the coverage; false if it is short.
fn run(seed: u64, out: &Path, end: End) -> std::io::Result<bool> {
    let log = example(seed, end);
    fs::write(out, &log)?;
    fs::write(out.with_extension("txt"), tally_lines(&log))?;
    let (entries, hands, cover) = survey(&log);
    println!("seed {seed}, {} bytes, {entries} entries, {hands} hands", log.len());
    cover.lines().iter().for_each(|line| println!("{line}"));
    let short = cover.short(1);
    if !short.is_empty() {
        println!("not reached: {}", short.join(", "));
    }
    Ok(short.is_empty())
}

/// Exit code 0: written and coverage whole; 1: coverage short or not written; 2: wrong arguments.
fn main() -> ExitCode {
    let arguments: Vec<String> = env::args().skip(1).collect();
    let words: Vec<&str> = arguments.iter().map(String::as_str).collect();
    let (seed, out, end) = match words.as_slice() {
        [seed, out] | [seed, out, "deal"] => (seed, out, End::Deal),
        [seed, out, "hands"] => (seed, out, End::Hands),
        _ => {
            eprintln!("logs SEED OUT [deal|hands]");
            return ExitCode::from(2);
        }
    };
    let out = Path::new(out);
    let text = out.extension().is_some_and(|ending| ending == "txt");
    let Some(seed) = seed.parse().ok().filter(|_| !text) else {
        eprintln!("SEED is a number, and OUT does not end in .txt");
        return ExitCode::from(2);
    };
    match run(seed, out, end) {
        Ok(true) => ExitCode::SUCCESS,
        Ok(false) => ExitCode::from(1),
        Err(error) => {
            eprintln!("{}: {error}", out.display());
            ExitCode::from(1)
        }
    }
}
