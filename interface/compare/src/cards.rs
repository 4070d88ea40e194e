//! Practice cards of every suit and size, in buffers of many lengths.

use archive::{same, CARDS_MAX};
use other_scorer::cards;
use other_scorer::rng::Rng;

use crate::report::Report;

/// So many bytes more are looked at behind a buffer.
const BEHIND: usize = 4;

/// Compares the cards of a suit and a size in a buffer of a length, to the last byte and behind it.
fn compare(report: &mut Report, rng: &mut Rng, suit: u8, size: u8, length: usize) {
    let mut archive: Vec<u8> = (0..length + BEHIND).map(|_| rng.next() as u8).collect();
    let mut other = archive.clone();
    let got = archive::cards(suit, size, &mut archive[..length]);
    let wanted = same::cards(suit, size, &mut other[..length]);
    report.count("cards by refusal", wanted.refusal);
    report.same("cards", (got, archive), (wanted, other), || format!("suit {suit}, size {size}, buffer of {length}"));
}

/// Compares every suit and size with some length, and the lists that there are with lengths about their own.
pub fn run(report: &mut Report, rng: &mut Rng) {
    for suit in 0..=u8::MAX {
        for size in 0..=u8::MAX {
            let Some(list) = cards::cards(suit, size) else {
                let length = rng.pick(&[0, 1, 64, 256]);
                compare(report, rng, suit, size, length);
                continue;
            };
            let whole = list.len() * size as usize;
            for length in [0, rng.below(whole), whole - 1, whole, whole + 1, CARDS_MAX, CARDS_MAX + rng.below(100)] {
                compare(report, rng, suit, size, length);
            }
        }
    }
    for (suit, size) in [(3, 8), (u8::MAX, 2), (0, 11)] {
        compare(report, rng, suit, size, CARDS_MAX);
    }
}
