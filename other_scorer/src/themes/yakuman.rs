//! Themes of yakuman.

use super::{any_group, different, triplets_and_pair};
use crate::plan::{Open, Plan};
use crate::reading::Group::{Run, Triplet};
use crate::rng::Rng;
use crate::tiles::{EAST, GREEN, HATSU, WHITE, YAOCHU};

/// Three dragon triplets (yaku 28).
pub fn big_dragons(rng: &mut Rng) -> Plan {
    let groups = [Triplet(WHITE), Triplet(HATSU), Triplet(33), any_group(rng)];
    let (pair, open) = (rng.within(0, 30), Open::any(rng));
    Plan::regular(rng, &groups, pair, open)
}

/// Three wind triplets and a wind pair (yaku 29).
pub fn little_winds(rng: &mut Rng) -> Plan {
    let winds = different(rng, &YAOCHU[6..10], 4);
    let groups = [Triplet(winds[0]), Triplet(winds[1]), Triplet(winds[2]), any_group(rng)];
    let open = Open::any(rng);
    Plan::regular(rng, &groups, winds[3], open)
}

/// Four wind triplets (yaku 29).
pub fn big_winds(rng: &mut Rng) -> Plan {
    let mut kinds = different(rng, &YAOCHU[6..10], 4);
    kinds.push(rng.within(0, 33));
    let open = Open::any(rng);
    triplets_and_pair(rng, &kinds, open)
}

/// Four triplets, closed (yaku 30 by tsumo or on the pair).
pub fn four_concealed(rng: &mut Rng) -> Plan {
    let all: Vec<u8> = (0..34).collect();
    let (kinds, open) = (different(rng, &all, 5), Open::closed(rng));
    triplets_and_pair(rng, &kinds, open)
}

/// Four kans (yaku 31).
pub fn four_kans(rng: &mut Rng) -> Plan {
    let all: Vec<u8> = (0..34).collect();
    let kinds = different(rng, &all, 5);
    triplets_and_pair(rng, &kinds, Open::Kans(4))
}

/// Honours only (yaku 32).
pub fn honours_only(rng: &mut Rng) -> Plan {
    let (kinds, open) = (different(rng, &YAOCHU[6..], 5), Open::any(rng));
    triplets_and_pair(rng, &kinds, open)
}

/// All seven honours as pairs (yaku 32).
pub fn honour_pairs(_: &mut Rng) -> Plan {
    Plan::loose((EAST..34).flat_map(|kind| [kind; 2]).collect())
}

/// Terminals only (yaku 33).
pub fn terminals_only(rng: &mut Rng) -> Plan {
    let (kinds, open) = (different(rng, &YAOCHU[..6], 5), Open::any(rng));
    triplets_and_pair(rng, &kinds, open)
}

/// Only sou 2 3 4 6 8 and hatsu, runs 234 likely (yaku 34).
pub fn all_green(rng: &mut Rng) -> Plan {
    let groups = [(); 4].map(|_| if rng.percent(45) { Run(GREEN[0]) } else { Triplet(rng.pick(&GREEN)) });
    let (pair, open) = (rng.pick(&GREEN), Open::any(rng));
    Plan::regular(rng, &groups, pair, open)
}

/// One suit's 1112345678999 and one more of it (yaku 35).
pub fn nine_gates(rng: &mut Rng) -> Plan {
    let mut ranks = vec![0, 0, 0, 1, 2, 3, 4, 5, 6, 7, 8, 8, 8, rng.within(0, 8)];
    let suit = 9 * rng.within(0, 2);
    ranks.iter_mut().for_each(|rank| *rank += suit);
    Plan::loose(ranks)
}

/// All 13 yaochu kinds, one twice (yaku 36).
pub fn orphans(rng: &mut Rng) -> Plan {
    let mut tiles = YAOCHU.to_vec();
    tiles.push(rng.pick(&YAOCHU));
    Plan::loose(tiles)
}
