//! Themes by the kinds of tile held.

use super::{different, triplets_and_pair};
use crate::plan::{Open, Plan};
use crate::reading::Group::{Run, Triplet};
use crate::rng::Rng;
use crate::tiles::{is_yaochu, EAST, YAOCHU};

/// A yaochu in every group and the pair, honours likely (yaku 15).
pub fn yaochu_each(rng: &mut Rng) -> Plan {
    let groups = [(); 4].map(|_| match rng.below(3) {
        0 => Triplet(rng.pick(&YAOCHU)),
        _ => Run(9 * rng.within(0, 2) + rng.pick(&[0, 6])),
    });
    let (pair, open) = (rng.pick(&YAOCHU), Open::any(rng));
    Plan::regular(rng, &groups, pair, open)
}

/// A terminal in every group and the pair (yaku 22).
pub fn terminals_each(rng: &mut Rng) -> Plan {
    let groups = [(); 4].map(|_| match rng.below(4) {
        0 => Triplet(rng.pick(&YAOCHU[..6])),
        _ => Run(9 * rng.within(0, 2) + rng.pick(&[0, 6])),
    });
    let (pair, open) = (rng.pick(&YAOCHU[..6]), Open::any(rng));
    Plan::regular(rng, &groups, pair, open)
}

/// Only yaochu (yaku 20).
pub fn only_yaochu(rng: &mut Rng) -> Plan {
    let (kinds, open) = (different(rng, &YAOCHU, 5), Open::any(rng));
    triplets_and_pair(rng, &kinds, open)
}

/// One suit and honours (yaku 23).
pub fn suit_and_honours(rng: &mut Rng) -> Plan {
    let suit = 9 * rng.within(0, 2);
    let groups = [(); 4].map(|_| match rng.below(5) {
        0 => Triplet(rng.within(EAST, 33)),
        1 => Triplet(suit + rng.within(0, 8)),
        _ => Run(suit + rng.within(0, 6)),
    });
    let (pair, open) = (rng.within(EAST, 33), Open::any(rng));
    Plan::regular(rng, &groups, pair, open)
}

/// One suit (yaku 25).
pub fn one_suit(rng: &mut Rng) -> Plan {
    let suit = 9 * rng.within(0, 2);
    let groups = [(); 4].map(|_| match rng.below(4) {
        0 => Triplet(suit + rng.within(0, 8)),
        _ => Run(suit + rng.within(0, 6)),
    });
    let (pair, open) = (suit + rng.within(0, 8), Open::any(rng));
    Plan::regular(rng, &groups, pair, open)
}

/// Seven pairs of different kinds (yaku 12).
pub fn seven_pairs(rng: &mut Rng) -> Plan {
    let all: Vec<u8> = (0..34).collect();
    Plan::loose(different(rng, &all, 7).into_iter().flat_map(|kind| [kind; 2]).collect())
}

/// Seven pairs of simples, of yaochu, of one suit, or of one suit and honours (yaku 12 with others).
pub fn sorted_pairs(rng: &mut Rng) -> Plan {
    let suit = 9 * rng.within(0, 2);
    let pool: Vec<u8> = match rng.below(4) {
        0 => (0..EAST).filter(|&kind| !is_yaochu(kind)).collect(),
        1 => YAOCHU.to_vec(),
        2 => (suit..suit + 9).collect(),
        _ => (suit..suit + 9).chain(EAST..34).collect(),
    };
    Plan::loose(different(rng, &pool, 7).into_iter().flat_map(|kind| [kind; 2]).collect())
}
