//! The bytes of an unfinished hand, and what its reader refuses (02, S-1).

use crate::record::{Meld, CHI};
use crate::tiles::starts_run;

/// The tiles of a hand that is one tile short.
#[derive(Clone, Copy, Debug, Default, PartialEq, Eq)]
pub struct Unfinished {
    pub m: u8,
    pub melds: [Meld; 4],
    pub concealed: [u8; 13],
}

/// The ways to meet refusal 1 in words, by the number that `length_fault` gives.
pub const LENGTH_FAULTS: [&str; 3] = ["an empty input", "m over 4", "a length not m's"];

/// The ways to meet refusal 2 in words: those of `field_faults`, then a padding bit.
pub const FIELD_FAULTS: [&str; 4] =
    ["tile of a meld over 33", "concealed tile over 33", "a chi with no run from that tile", "a padding bit set"];

/// The length in bytes for m melds: "81 − 10m bits", "zero bits to the byte".
pub fn length(m: u8) -> usize {
    (81 - 10 * m as usize).div_ceil(8)
}

/// How an input meets refusal 1, none if it does not: "an empty input, m over 4 or a length not m's".
pub fn length_fault(bytes: &[u8]) -> Option<usize> {
    match bytes.first().map(|first| first >> 5) {
        None => Some(0),
        Some(5..) => Some(1),
        Some(m) => (bytes.len() != length(m)).then_some(2),
    }
}

impl Unfinished {
    /// The melds in use.
    pub fn melds(&self) -> &[Meld] {
        &self.melds[..self.m as usize]
    }

    /// The concealed tiles in use, "13 − 3m tiles".
    pub fn concealed(&self) -> &[u8] {
        &self.concealed[..13 - 3 * self.m as usize]
    }

    /// Every tile held, kans whole.
    pub fn held(&self) -> Vec<u8> {
        self.concealed().iter().copied().chain(self.melds().iter().flat_map(Meld::tiles)).collect()
    }

    /// How often a kind is held.
    pub fn times(&self, kind: u8) -> usize {
        self.held().iter().filter(|&&tile| tile == kind).count()
    }
}

/// Each way to meet refusal 2 but a padding bit.
pub fn field_faults(hand: &Unfinished) -> [bool; 3] {
    [
        hand.melds().iter().any(|meld| meld.tile > 33),
        hand.concealed().iter().any(|&tile| tile > 33),
        hand.melds().iter().any(|meld| meld.kind == CHI && !starts_run(meld.tile)),
    ]
}

/// The fields, and whether a padding bit is set; only refusal 1 is met here.
pub fn unpack(bytes: &[u8]) -> Result<(Unfinished, bool), u8> {
    if length_fault(bytes).is_some() {
        return Err(1);
    }
    let mut bits = bytes.iter().flat_map(|byte| (0..8).rev().map(move |at| byte >> at & 1));
    let mut take = |width: usize| bits.by_ref().take(width).fold(0, |value, bit| value << 1 | bit);
    let mut hand = Unfinished { m: take(3), ..Unfinished::default() };
    for meld in &mut hand.melds[..hand.m as usize] {
        *meld = Meld { kind: take(2), tile: take(6) };
    }
    for tile in &mut hand.concealed[..13 - 3 * hand.m as usize] {
        *tile = take(6);
    }
    Ok((hand, bits.any(|bit| bit == 1)))
}

/// Reads an unfinished hand; the error is refusal 1 to 4, first match: "Read's checks 1 to 4 .. without indicator or winning tile".
pub fn read(bytes: &[u8]) -> Result<Unfinished, u8> {
    let (hand, padding) = unpack(bytes)?;
    if padding || field_faults(&hand).contains(&true) {
        Err(2)
    } else if !hand.concealed().is_sorted() {
        Err(3)
    } else if (0..34).any(|kind| hand.times(kind) > 4) {
        Err(4)
    } else {
        Ok(hand)
    }
}

/// The bytes of a string of bits, "zero bits to the byte".
fn from_bits(bits: &str) -> Vec<u8> {
    let byte = |at: usize| u8::from_str_radix(&format!("{:0<8}", &bits[at..bits.len().min(at + 8)]), 2).expect("bits");
    (0..bits.len()).step_by(8).map(byte).collect()
}

/// The bytes of a hand, sound or not.
pub fn pack(hand: &Unfinished) -> Vec<u8> {
    let melds = hand.melds().iter().map(|meld| format!("{:02b}{:06b}", meld.kind & 3, meld.tile & 63));
    let tiles = hand.concealed().iter().map(|tile| format!("{:06b}", tile & 63));
    from_bits(&format!("{:03b}{}{}", hand.m, melds.collect::<String>(), tiles.collect::<String>()))
}

/// Bytes into the lent buffer, and their length; the error is refusal 13.
fn put(bytes: &[u8], buffer: &mut [u8]) -> Result<usize, u8> {
    buffer.get_mut(..bytes.len()).ok_or(13)?.copy_from_slice(bytes);
    Ok(bytes.len())
}

/// Writes a hand into the lent buffer and gives the length; the error is refusal 2 to 4 or 13: "m over 4, a field too large for its
/// bits, or an unused place not zero" (01, Write), and then what the bytes are refused for when they are read.
pub fn write(hand: &Unfinished, buffer: &mut [u8]) -> Result<usize, u8> {
    let m = hand.m as usize;
    if m > 4 {
        return Err(2);
    }
    let unused = hand.melds[m..].iter().any(|&meld| meld != Meld::default()) || hand.concealed[13 - 3 * m..].iter().any(|&tile| tile != 0);
    let large = hand.melds().iter().any(|meld| meld.kind > 3 || meld.tile > 63) || hand.concealed().iter().any(|&tile| tile > 63);
    if unused || large {
        return Err(2);
    }
    let bytes = pack(hand);
    read(&bytes)?;
    put(&bytes, buffer)
}

/// The unfinished hand that a record is without its winning tile, into the lent buffer; the error is refusal 1 to 5 or 13. Its bits
/// are the record's own, from the meld count on, which has 22 before it: "81 − 10m bits".
pub fn from_record(record: &[u8], buffer: &mut [u8]) -> Result<usize, u8> {
    let m = crate::codec::read(record)?.m as usize;
    let bits: String = record.iter().map(|byte| format!("{byte:08b}")).collect();
    put(&from_bits(&bits[22..22 + 81 - 10 * m]), buffer)
}
