//! Damaged records: bits flipped, cut, extended, or random bytes.

use crate::codec::length;
use crate::rng::Rng;

/// The greatest length of a record in a vector.
pub const LONGEST: usize = 16;

/// Random bytes of a given length.
fn random(rng: &mut Rng, length: usize) -> Vec<u8> {
    (0..length).map(|_| rng.next() as u8).collect()
}

/// Sets the meld count of a record of at least 4 bytes (01, Tiles and the hand record).
fn set_melds(record: &mut [u8], m: u8) {
    record[2] = record[2] & !0b11 | m >> 1;
    record[3] = record[3] & 0x7F | (m & 1) << 7;
}

/// A sound record damaged in a random way.
pub fn damaged(rng: &mut Rng, mut record: Vec<u8>) -> Vec<u8> {
    match rng.below(7) {
        0 => flip(rng, &mut record, 1),
        1 => {
            let count = 2 + rng.below(4);
            flip(rng, &mut record, count);
        }
        2 => record.truncate(rng.below(record.len())),
        3 => {
            let more = 1 + rng.below(LONGEST - record.len());
            record.extend(random(rng, more));
        }
        4 => set_melds(&mut record, rng.within(0, 7)),
        5 => {
            let m = rng.within(0, 4);
            set_melds(&mut record, m);
            record.resize(length(m), 0);
        }
        _ => {
            let at = rng.below(record.len());
            record[at] = rng.next() as u8;
        }
    }
    record
}

/// Flips so many bits.
fn flip(rng: &mut Rng, record: &mut [u8], count: usize) {
    for _ in 0..count {
        let at = rng.below(record.len());
        record[at] ^= 1 << rng.below(8);
    }
}

/// Random bytes of any length, or of the length their meld count asks.
pub fn noise(rng: &mut Rng) -> Vec<u8> {
    if rng.percent(70) {
        let length = rng.below(LONGEST + 1);
        return random(rng, length);
    }
    let m = rng.within(0, 4);
    let mut record = random(rng, length(m));
    set_melds(&mut record, m);
    record
}
