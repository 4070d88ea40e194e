//! A line of tally in buffers of its length, one less and others.

use archive::LINE_MAX;
use other_scorer::rng::Rng;

use crate::report::Report;

/// So many bytes more are looked at behind a line.
const BEHIND: usize = 4;

/// Compares a line with its text: written whole where it fits, else nothing.
pub fn compare(report: &mut Report, rng: &mut Rng, text: &[u8], numbers: (u32, u8, u8), position: &archive::Position) {
    let (entry, letter, refusal) = numbers;
    let before: Vec<u8> = (0..LINE_MAX + BEHIND).map(|_| rng.next() as u8).collect();
    for length in [LINE_MAX, text.len(), text.len() - 1, rng.below(LINE_MAX + 1)] {
        let mut archive = before.clone();
        let got = archive::log_line(position, entry, letter, refusal, &mut archive[..length]);
        let mut wanted = before.clone();
        let fits = text.len() <= length;
        if fits {
            wanted[..text.len()].copy_from_slice(text);
        }
        report.count("lines (1 fit, 0 do not)", fits);
        report.same("a line", (got, archive), (if fits { text.len() } else { 0 }, wanted), || {
            format!("entry {entry} letter {letter} refusal {refusal} {position:?}, buffer of {length}")
        });
    }
}

/// Compares lines of random numbers, the ends of their ranges among them.
pub fn run(report: &mut Report, rng: &mut Rng, count: usize) {
    for _ in 0..count {
        let mut number = || {
            let any = rng.next() as u32 >> rng.below(32);
            rng.pick(&[any, any, any.wrapping_neg(), 0, 1, u32::MAX, 1 << 31, (1 << 31) - 1])
        };
        let scores = [(); 4].map(|_| number() as i32);
        let (entry, sticks) = (number(), number());
        let (letter, refusal) = (number() as u8, number() as u8);
        let (declared, over) = ([(); 4].map(|_| number() as u8), number() as u8);
        let (counter, feeders) = (number(), [(); 8].map(|_| number() as u8));
        let position = archive::Position { scores, sticks, declared, over, counter, feeders, ..archive::fresh_game().now };
        let [a, b, c, d] = scores;
        let start = format!("{entry} ").into_bytes();
        let rest = format!(" {refusal} {a} {b} {c} {d} {sticks}\n").into_bytes();
        let text = [start, vec![letter], rest].concat();
        compare(report, rng, &text, (entry, letter, refusal), &position);
    }
}
