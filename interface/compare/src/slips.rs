//! Slips on pages of many lengths.

use archive::SLIP_LENGTH;
use other_scorer::notation::hex::to_hex as hex;
use other_scorer::rng::Rng;
use other_scorer::{slip, Scored};

use crate::report::Report;

/// So many bytes more are looked at behind a page.
const BEHIND: usize = 4;

/// The longest page lent.
const LONGEST: usize = 400;

/// The length of a page: any, a little under a slip's, a slip's, or more.
fn length(rng: &mut Rng) -> usize {
    match rng.below(8) {
        0 => rng.below(LONGEST + 1),
        1 => SLIP_LENGTH - 1 - rng.below(3),
        2 => SLIP_LENGTH,
        _ => SLIP_LENGTH + rng.below(LONGEST - SLIP_LENGTH + 1),
    }
}

/// Compares the slip of a record that scores so, to the last byte of the page and behind it.
pub fn compare(report: &mut Report, rng: &mut Rng, record: &[u8], dealer: u8, wind: u8, scored: &Scored) {
    let length = length(rng);
    let mut archive: Vec<u8> = (0..length + BEHIND).map(|_| rng.next() as u8).collect();
    let mut other = archive.clone();
    let got = archive::slip(record, dealer, wind, &mut archive[..length]);
    let wanted = slip::write(scored, &mut other[..length]);
    report.count("slips by refusal", wanted);
    report.same("a slip", (got, archive), (wanted, other), || format!("{} dealer {dealer} wind {wind}, page of {length}", hex(record)));
}
