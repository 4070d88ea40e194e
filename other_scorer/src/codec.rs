//! Reading and writing the bytes of a record (01, Read; Write).

use crate::record::{Hand, Meld};
use crate::sound::refusal;

/// The record's length in bytes for m melds (01, Tiles and the hand record).
pub fn length(m: u8) -> usize {
    (103 - 10 * m as usize).div_ceil(8)
}

/// The ways to meet refusal 1 in words, by the number that `length_fault` gives (01, Read).
pub const LENGTH_FAULTS: [&str; 3] = ["under 4 bytes", "m over 4", "a length not m's"];

/// The meld count of a record of at least 4 bytes (01, Tiles and the hand record).
pub fn meld_count(record: &[u8]) -> u8 {
    (record[2] & 0b11) << 1 | record[3] >> 7
}

/// How a record meets refusal 1, none if it does not (01, Read).
pub fn length_fault(record: &[u8]) -> Option<usize> {
    if record.len() < 4 {
        return Some(0);
    }
    match meld_count(record) {
        5.. => Some(1),
        m => (record.len() != length(m)).then_some(2),
    }
}

/// The fields of a record, and whether a padding bit is set; only refusal 1 is met here (01, Read).
pub fn unpack(record: &[u8]) -> Result<(Hand, bool), u8> {
    if length_fault(record).is_some() {
        return Err(1);
    }
    let m = meld_count(record);
    let mut left = [0; 16];
    left[..record.len()].copy_from_slice(record);
    let mut left = u128::from_be_bytes(left);
    let mut take = |bits: u32| {
        let field = (left >> (128 - bits)) as u8;
        left <<= bits;
        field
    };
    let mut hand = Hand {
        how: take(1),
        winner: take(2),
        discarder: take(2),
        riichi: take(2),
        situation: take(3),
        indicator: take(6),
        winning: take(6),
        m: take(3),
        ..Hand::default()
    };
    for meld in &mut hand.melds[..m as usize] {
        *meld = Meld { kind: take(2), tile: take(6) };
    }
    for tile in &mut hand.concealed[..13 - 3 * m as usize] {
        *tile = take(6);
    }
    Ok((hand, left != 0))
}

/// Reads a record; the error is refusal 1 to 5, first match (01, Read).
pub fn read(record: &[u8]) -> Result<Hand, u8> {
    let (hand, padding) = unpack(record)?;
    if padding {
        return Err(2);
    }
    match refusal(&hand) {
        0 => Ok(hand),
        number => Err(number),
    }
}

/// The bytes of a hand whose fields fit their bits, sound or not (01, Tiles and the hand record).
pub fn pack(hand: &Hand) -> Vec<u8> {
    let mut bits: u128 = 0;
    let mut used = 0;
    let mut put = |width: u32, field: u8| {
        bits = bits << width | (field as u128 & ((1 << width) - 1));
        used += width;
    };
    put(1, hand.how);
    put(2, hand.winner);
    put(2, hand.discarder);
    put(2, hand.riichi);
    put(3, hand.situation);
    put(6, hand.indicator);
    put(6, hand.winning);
    put(3, hand.m);
    for meld in hand.melds() {
        put(2, meld.kind);
        put(6, meld.tile);
    }
    for &tile in hand.concealed() {
        put(6, tile);
    }
    let all = (bits << (128 - used)).to_be_bytes();
    all[..length(hand.m)].to_vec()
}

/// Write's own part of refusal 2: m over 4, a field too large, an unused place not zero (01, Write).
fn unwritable(hand: &Hand) -> bool {
    if hand.m > 4 {
        return true;
    }
    let m = hand.m as usize;
    hand.how > 1
        || hand.winner > 3
        || hand.discarder > 3
        || hand.melds().iter().any(|meld| meld.kind > 3)
        || hand.melds[m..].iter().any(|&meld| meld != Meld::default())
        || hand.concealed[13 - 3 * m..].iter().any(|&tile| tile != 0)
}

/// Writes a hand into the lent buffer and gives the length; the error is refusal 2 to 5 or 13 (01, Write).
pub fn write(hand: &Hand, buffer: &mut [u8]) -> Result<usize, u8> {
    if unwritable(hand) {
        return Err(2);
    }
    match refusal(hand) {
        0 => {}
        number => return Err(number),
    }
    let record = pack(hand);
    let lent = buffer.get_mut(..record.len()).ok_or(13)?;
    lent.copy_from_slice(&record);
    Ok(record.len())
}
