//! The lines of a log in buffers of many lengths, the walk handed back each time.

use archive::{same, Walk, LINE_MAX};
use other_scorer::notation::hex::to_hex as hex;
use other_scorer::rng::Rng;

use crate::report::Report;

/// So many bytes more are looked at behind a buffer.
const BEHIND: usize = 4;

/// The longest buffer lent.
const LONGEST: usize = 4096;

/// The length of a buffer: none, shorter than some lines, for one line, for a few, for many.
fn length(rng: &mut Rng) -> usize {
    match rng.below(5) {
        0 => rng.below(4),
        1 => rng.below(LINE_MAX),
        2 => LINE_MAX,
        3 => rng.below(10 * LINE_MAX),
        _ => LONGEST,
    }
}

/// Compares the lines from where a walk stands, to the last byte, behind it, and where the walk then stands: as many whole
/// lines as fit. Gives the archive's text.
pub fn compare(report: &mut Report, rng: &mut Rng, from: Walk, log: &[u8]) -> String {
    let lines = same::lines(from, log);
    let (mut walk, mut left, mut text) = (from, lines.as_slice(), Vec::new());
    let any: Vec<u8> = (0..LONGEST + BEHIND).map(|_| rng.next() as u8).collect();
    loop {
        let length = length(rng);
        let (mut archive, mut other) = (any[..length + BEHIND].to_vec(), any[..length + BEHIND].to_vec());
        let got = archive::log_lines(walk, log, &mut archive[..length]);
        let (before, mut written) = (walk, 0);
        while let Some(((line, after), rest)) = left.split_first().filter(|((line, _), _)| written + line.len() <= length) {
            other[written..written + line.len()].copy_from_slice(line.as_bytes());
            written += line.len();
            (walk, left) = (*after, rest);
        }
        text.extend_from_slice(&archive[..got.written.min(length)]);
        report.count("buffers of lines (1 some, 0 none)", written > 0);
        report.same("the lines of a buffer", (got, archive), (archive::Printed { written, walk }, other), || {
            format!("{before:?}, buffer of {length}, log {}", hex(log))
        });
        if length >= LINE_MAX && written == 0 {
            return String::from_utf8_lossy(&text).into_owned();
        }
    }
}
