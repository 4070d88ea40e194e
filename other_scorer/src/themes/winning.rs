//! Themes of situations.

use super::any_group;
use super::kinds::{seven_pairs, yaochu_each};
use super::runs::{block, dense, four_runs, ordinary, straight, three_suits};
use super::yakuman::{honour_pairs, nine_gates, orphans};
use crate::plan::{Open, Plan};
use crate::reading::Group::Triplet;
use crate::record::{CHANKAN, FIRST_TURN, LAST_TILE, RINSHAN, RON, TSUMO};
use crate::rng::Rng;

/// Chankan: ron on a tile held once (yaku 6).
pub fn chankan(rng: &mut Rng) -> Plan {
    let plan = match rng.below(8) {
        0 => four_runs(rng),
        1 => three_suits(rng),
        2 => straight(rng),
        3 => orphans(rng),
        4 => yaochu_each(rng),
        _ => ordinary(rng),
    };
    Plan { how: Some(RON), situation: Some(CHANKAN), ..plan }
}

/// Rinshan: tsumo with a kan (yaku 7).
pub fn rinshan(rng: &mut Rng) -> Plan {
    let mut groups = [(); 4].map(|_| any_group(rng));
    groups[0] = Triplet(rng.within(0, 33));
    let (pair, open) = (rng.within(0, 33), Open::Kans(rng.within(1, 4) as usize));
    let plan = Plan::regular(rng, &groups, pair, open);
    Plan { how: Some(TSUMO), riichi: Some(0), situation: Some(RINSHAN), ..plan }
}

/// Last tile, by tsumo or ron (yaku 8 and 9).
pub fn last_tile(rng: &mut Rng) -> Plan {
    let plan = ordinary(rng);
    Plan { situation: Some(LAST_TILE), ..plan }
}

/// First turn with any closed hand (yaku 26 and 27).
pub fn first_turn(rng: &mut Rng) -> Plan {
    let plan = match rng.below(8) {
        0 => four_runs(rng),
        1 => seven_pairs(rng),
        2 => orphans(rng),
        3 => nine_gates(rng),
        4 => block(rng),
        5 => honour_pairs(rng),
        6 => dense(rng),
        _ => ordinary(rng),
    };
    Plan { how: Some(TSUMO), riichi: Some(0), situation: Some(FIRST_TURN), ..plan }
}

/// Double riichi with any closed hand (yaku 11).
pub fn double_riichi(rng: &mut Rng) -> Plan {
    let groups = [(); 4].map(|_| any_group(rng));
    let pair = rng.within(0, 33);
    let plan = Plan::regular(rng, &groups, pair, Open::No);
    Plan { riichi: Some(2), ..plan }
}
