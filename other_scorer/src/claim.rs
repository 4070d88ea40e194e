//! Another scorer's claim for a record: a reading and the winner's gain, and how it is judged (02, S-13).

use crate::codec::read;
use crate::reading::{Group, Reading};
use crate::score::valued;
use crate::tiles::starts_run;

/// The refusal of a faulty claim.
pub const FAULTY: u8 = 22;

/// The faults of a claim in words, by the number that `parse` gives (02, S-13).
pub const FAULTS: [&str; 7] = [
    "another length",
    "shape 3",
    "a pair over 33",
    "a group code that names no group",
    "descending codes",
    "a place over 4 - m",
    "a padding bit set",
];

/// What a claim names.
#[derive(Clone, Debug, PartialEq, Eq)]
pub struct Claim {
    pub reading: Reading,
    pub gain: u32,
}

/// A refusal and 0, or 0 and the verdict: 0 accepted, 1 to 4 the first of the four conditions that is false.
#[derive(Clone, Copy, Debug, Default, PartialEq, Eq)]
pub struct Judged {
    pub refusal: u8,
    pub verdict: u8,
}

/// The bits of a claim of a shape, for a hand with m melds, padding left out.
fn bits(shape: u8, m: u8) -> usize {
    let regular = if shape == 0 { 6 + 7 * (4 - m as usize) + 3 } else { 0 };
    2 + regular + 17
}

/// The group of a code (01, Readings: "run: lowest kind; triplet: 34 + kind").
pub fn group(code: u8) -> Option<Group> {
    match code {
        0..34 => starts_run(code).then_some(Group::Run(code)),
        34..68 => Some(Group::Triplet(code - 34)),
        _ => None,
    }
}

/// The code of a group.
pub fn code(group: Group) -> u8 {
    match group {
        Group::Run(low) => low,
        Group::Triplet(kind) => 34 + kind,
    }
}

/// What a claim for a hand with m melds names, or the number of its first fault.
pub fn parse(claim: &[u8], m: u8) -> Result<Claim, usize> {
    let shape = claim.first().map_or(0, |byte| byte >> 6);
    if shape == 3 {
        return Err(1);
    }
    if claim.len() != bits(shape, m).div_ceil(8) {
        return Err(0);
    }
    let mut left = [0; 8];
    left[..claim.len()].copy_from_slice(claim);
    let mut left = u64::from_be_bytes(left) << 2;
    let mut take = |bits: u32| {
        let field = left >> (64 - bits);
        left <<= bits;
        field
    };
    let reading = match shape {
        0 => {
            let pair = take(6) as u8;
            let groups: Vec<Option<Group>> = (m..4).map(|_| group(take(7) as u8)).collect();
            let place = take(3) as usize;
            if pair > 33 {
                return Err(2);
            }
            let groups: Vec<Group> = groups.into_iter().collect::<Option<_>>().ok_or(3usize)?;
            if !groups.is_sorted() {
                return Err(4);
            }
            if place > groups.len() {
                return Err(5);
            }
            Reading::Regular { pair, groups, place }
        }
        1 => Reading::SevenPairs,
        _ => Reading::ThirteenOrphans,
    };
    let gain = take(17) as u32;
    if left != 0 {
        return Err(6);
    }
    Ok(Claim { reading, gain })
}

/// The bytes of a claim whose fields fit their bits.
pub fn pack(claim: &Claim) -> Vec<u8> {
    let (mut bits, mut used) = (0u64, 0);
    let mut put = |width: u32, field: u64| {
        bits = bits << width | field;
        used += width;
    };
    match &claim.reading {
        Reading::Regular { pair, groups, place } => {
            put(2, 0);
            put(6, *pair as u64);
            groups.iter().for_each(|&group| put(7, code(group) as u64));
            put(3, *place as u64);
        }
        Reading::SevenPairs => put(2, 1),
        Reading::ThirteenOrphans => put(2, 2),
    }
    put(17, claim.gain as u64);
    (bits << (64 - used)).to_be_bytes()[..used.div_ceil(8) as usize].to_vec()
}

/// What is to be claimed, as a caller gives it: a reading's shape, pair (34 none), codes of groups (68 none) and place, the gain, and the m of the hand.
#[derive(Clone, Copy, Debug, PartialEq, Eq)]
pub struct Fields {
    pub gain: u32,
    pub shape: u8,
    pub pair: u8,
    pub groups: [u8; 4],
    pub place: u8,
    pub m: u8,
}

impl Fields {
    /// What a claim names, for a hand with m melds.
    pub fn of(claim: &Claim, m: u8) -> Fields {
        let none = Fields { gain: claim.gain, shape: 0, pair: 34, groups: [68; 4], place: 0, m };
        match &claim.reading {
            Reading::Regular { pair, groups, place } => {
                let mut codes = groups.iter().map(|&group| code(group)).chain([68; 4]);
                let groups = [(); 4].map(|_| codes.next().unwrap_or(68));
                Fields { pair: *pair, groups, place: *place as u8, ..none }
            }
            Reading::SevenPairs => Fields { shape: 1, ..none },
            Reading::ThirteenOrphans => Fields { shape: 2, ..none },
        }
    }

    /// The bytes of their binary digits written one after the other, whether they fit or not.
    fn bytes(&self) -> Vec<u8> {
        let mut digits = format!("{:02b}", self.shape);
        if self.shape == 0 {
            digits += &format!("{:06b}", self.pair);
            self.groups[..4 - self.m.min(4) as usize].iter().for_each(|code| digits += &format!("{code:07b}"));
            digits += &format!("{:03b}", self.place);
        }
        digits += &format!("{:017b}", self.gain);
        let byte = |eight: &[u8]| (0..8).fold(0, |byte, at| 2 * byte + eight.get(at).map_or(0, |digit| digit - b'0'));
        digits.as_bytes().chunks(8).map(byte).collect()
    }

    /// Writes the claim at the start of a buffer and gives its length, or the refusal: 22 where what is read of it is not what was given, then 13.
    pub fn write(&self, buffer: &mut [u8]) -> Result<usize, u8> {
        let bytes = self.bytes();
        let read = if self.m > 4 { None } else { parse(&bytes, self.m).ok() };
        if read.map(|claim| Fields::of(&claim, self.m)) != Some(*self) {
            return Err(FAULTY);
        }
        let room = buffer.get_mut(..bytes.len()).ok_or(13)?;
        room.copy_from_slice(&bytes);
        Ok(bytes.len())
    }
}

/// The verdict on a claim among all readings of a sound hand with their gains; no gain where there is no yaku.
fn verdict(claim: &Claim, gains: &[(Reading, Option<i32>)]) -> u8 {
    let most = gains.iter().filter_map(|(_, gain)| *gain).max();
    match gains.iter().find(|(reading, _)| *reading == claim.reading) {
        None => 1,
        Some((_, None)) => 2,
        Some((_, Some(gain))) if *gain as u32 != claim.gain => 3,
        Some((_, gain)) if *gain < most => 4,
        Some(_) => 0,
    }
}

/// Judges a claim for a record, a dealer and a round wind (02, S-13).
pub fn judge(record: &[u8], claim: &[u8], dealer: u8, wind: u8) -> Judged {
    let refused = |refusal| Judged { refusal, verdict: 0 };
    if dealer > 3 || wind > 1 {
        return refused(8);
    }
    let hand = match read(record) {
        Ok(hand) => hand,
        Err(number) => return refused(number),
    };
    let Ok(claim) = parse(claim, hand.m) else { return refused(FAULTY) };
    let all = valued(&hand, dealer, wind).into_iter();
    let gains: Vec<_> = all.map(|(reading, value)| (reading, value.map(|value| value.gain))).collect();
    Judged { refusal: 0, verdict: verdict(&claim, &gains) }
}
