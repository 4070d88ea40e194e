//! The yaku that a feeder answers for: 28, and 29 with four wind triplets (02, S-8; 004, article 67).

use crate::reading::{Group, Reading};
use crate::record::{Hand, CHI};
use crate::score::{best, valued};
use crate::tiles::is_wind;

/// Three dragon triplets, and four wind triplets (01, Yaku; 02, S-8).
pub const DRAGONS: u8 = 28;
pub const WINDS: u8 = 29;

/// How many wind triplets a regular reading has, melds and kans among them (01, Yaku).
fn wind_triplets(hand: &Hand, groups: &[Group]) -> usize {
    let melded = hand.melds().iter().filter(|meld| meld.kind != CHI).map(|meld| meld.tile);
    let read = groups.iter().filter_map(|group| match group {
        Group::Triplet(kind) => Some(*kind),
        Group::Run(_) => None,
    });
    melded.chain(read).filter(|&kind| is_wind(kind)).count()
}

/// Which of the two yaku the reported reading of a hand has, none if neither; three wind triplets and a pair are not meant (02, S-8).
pub fn yaku(hand: &Hand, dealer: u8, wind: u8) -> Option<u8> {
    let all = valued(hand, dealer, wind);
    let (reading, value) = &all[best(&all)?];
    let has = |number: u8| value.is_some_and(|value| value.yaku >> number & 1 == 1);
    match reading {
        _ if has(DRAGONS) => Some(DRAGONS),
        Reading::Regular { groups, .. } if has(WINDS) && wind_triplets(hand, groups) == 4 => Some(WINDS),
        _ => None,
    }
}
