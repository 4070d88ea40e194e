//! The vectors of the generated file: a record, dealer and wind, and what they score.

use crate::codec::pack;
use crate::damage::{damaged, noise};
use crate::deal::{deal, drawn, near, themed};
use crate::fault::{self, FAULTS};
use crate::record::Hand;
use crate::rng::Rng;
use crate::score::{best, score, valued, Scored, Valued};
use crate::themes::{runs::dense, THEMES};

#[derive(Clone, Debug)]
pub struct Vector {
    pub record: Vec<u8>,
    pub dealer: u8,
    pub wind: u8,
    pub scored: Scored,
}

/// The length of a vector.
pub const LENGTH: usize = 54;

impl Vector {
    /// The bytes of a vector, as crates/vectors/src/main.rt says.
    pub fn bytes(&self) -> [u8; LENGTH] {
        let mut bytes = [0; LENGTH];
        let scored = &self.scored;
        bytes[0] = self.record.len() as u8;
        bytes[1..1 + self.record.len()].copy_from_slice(&self.record);
        bytes[17] = self.dealer;
        bytes[18] = self.wind;
        bytes[19] = scored.refusal;
        bytes[20] = scored.h;
        bytes[21] = scored.fu;
        for n in (0..40).filter(|n| scored.yaku >> n & 1 == 1) {
            bytes[22 + n / 8] |= 1 << (n % 8);
        }
        bytes[27] = scored.tried as u8;
        for (seat, change) in scored.changes.iter().enumerate() {
            bytes[28 + 4 * seat..32 + 4 * seat].copy_from_slice(&change.to_le_bytes());
        }
        bytes[44..].copy_from_slice(&scored.items.list());
        bytes
    }
}

/// A sound hand of the theme of this turn.
fn in_turn(rng: &mut Rng, index: usize) -> Hand {
    loop {
        let plan = THEMES[index % THEMES.len()](rng);
        if let Some(hand) = deal(rng, &plan) {
            return hand;
        }
    }
}

/// The gain, h and fu of a reading, if it has a yaku.
fn rank(valued: &Valued) -> Option<(i32, u8, u8)> {
    valued.1.map(|value| (value.gain, value.h, value.fu))
}

/// Whether a reading ties with the reported one in gain, h and fu but has another yaku set.
pub fn has_tie(all: &[Valued]) -> bool {
    let Some(at) = best(all) else { return false };
    let yaku = |one: &Valued| one.1.map(|value| value.yaku);
    all.iter().any(|one| rank(one) == rank(&all[at]) && yaku(one) != yaku(&all[at]))
}

/// Whether the first reading with a yaku is worse than the reported one.
pub fn first_is_not_best(all: &[Valued]) -> bool {
    let first = all.iter().find_map(rank);
    best(all).is_some_and(|at| rank(&all[at]) != first)
}

/// Whether the reported reading beats one of equal gain by h, and one of equal gain and h by fu.
pub fn decided_by(all: &[Valued]) -> (bool, bool) {
    let Some((gain, h, fu)) = best(all).and_then(|at| rank(&all[at])) else {
        return (false, false);
    };
    let ranks = || all.iter().filter_map(rank);
    let by_h = ranks().any(|one| one.0 == gain && one.1 < h);
    let by_fu = ranks().any(|one| one.0 == gain && one.1 == h && one.2 < fu);
    (by_h, by_fu)
}

/// A dense hand that passes a test; the last one tried if none does.
fn sought(rng: &mut Rng, dealer: u8, wind: u8, test: fn(&[Valued]) -> bool) -> Hand {
    let mut last = themed(rng);
    for _ in 0..400 {
        let plan = dense(rng);
        let Some(hand) = deal(rng, &plan) else { continue };
        if test(&valued(&hand, dealer, wind)) {
            return hand;
        }
        last = hand;
    }
    last
}

/// A seat or wind number: mostly up to `high`, seldom above.
fn number(rng: &mut Rng, high: u8) -> u8 {
    match rng.below(200) {
        0 => high + 1,
        1 => rng.within(high + 1, 255),
        _ => rng.within(0, high),
    }
}

/// The vector of this index; the same generator state gives the same vector.
pub fn make(rng: &mut Rng, index: usize) -> Vector {
    let (dealer, wind) = (number(rng, 3), number(rng, 1));
    let (low_dealer, low_wind) = (dealer % 4, wind % 2);
    let record = match rng.below(100) {
        0..=61 => pack(&in_turn(rng, index)),
        62 => pack(&sought(rng, low_dealer, low_wind, has_tie)),
        63..=65 => pack(&sought(rng, low_dealer, low_wind, first_is_not_best)),
        66..=70 => pack(&near(rng)),
        71..=72 => pack(&drawn(rng)),
        73..=87 => fault::record(rng, index % FAULTS),
        88..=95 => {
            let hand = themed(rng);
            damaged(rng, pack(&hand))
        }
        _ => noise(rng),
    };
    let scored = score(&record, dealer, wind);
    Vector { record, dealer, wind, scored }
}
