//! Themes of triplets and kans.

use super::{any_group, any_run, different, triplets_and_pair};
use crate::plan::{Open, Plan};
use crate::reading::Group::{self, Triplet};
use crate::record::{CHI, CLOSED_KAN, OPEN_KAN, PON, RON};
use crate::rng::Rng;
use crate::tiles::{EAST, HATSU, WHITE, YAOCHU};

/// One to three triplets of honours (yaku 3).
pub fn value(rng: &mut Rng) -> Plan {
    let honours = different(rng, &YAOCHU[6..], 4);
    let count = rng.within(1, 3) as usize;
    let mut groups: Vec<Group> = honours[..count].iter().map(|&kind| Triplet(kind)).collect();
    groups.resize_with(4, || any_group(rng));
    let pair = if rng.percent(50) { honours[3] } else { rng.within(0, 33) };
    let open = Open::any(rng);
    Plan::regular(rng, &groups, pair, open)
}

/// East and South as triplet or pair, runs else: value of both winds (yaku 3, value pair).
pub fn winds_and_runs(rng: &mut Rng) -> Plan {
    let winds = different(rng, &[EAST, EAST + 1], 2);
    let groups = [Triplet(winds[0]), any_run(rng), any_run(rng), any_group(rng)];
    let pair = if rng.percent(50) { winds[1] } else { rng.within(0, 33) };
    let open = Open::any(rng);
    Plan::regular(rng, &groups, pair, open)
}

/// The same triplet in three suits (yaku 16).
pub fn three_triplets(rng: &mut Rng) -> Plan {
    let low = rng.within(0, 8);
    let groups = [Triplet(low), Triplet(low + 9), Triplet(low + 18), any_group(rng)];
    let (pair, open) = (rng.within(0, 33), Open::any(rng));
    Plan::regular(rng, &groups, pair, open)
}

/// Four triplets (yaku 17).
pub fn four_triplets(rng: &mut Rng) -> Plan {
    let all: Vec<u8> = (0..34).collect();
    let (kinds, open) = (different(rng, &all, 5), Open::any(rng));
    triplets_and_pair(rng, &kinds, open)
}

/// Three triplets not melded but as closed kans, and a run (yaku 18).
pub fn three_concealed(rng: &mut Rng) -> Plan {
    let all: Vec<u8> = (0..34).collect();
    let kinds = different(rng, &all, 4);
    let groups = [Triplet(kinds[0]), Triplet(kinds[1]), Triplet(kinds[2]), any_run(rng)];
    let open = rng.pick(&[Open::No, Open::ClosedKans, Open::Kind(CHI)]);
    Plan::regular(rng, &groups, kinds[3], open)
}

/// Three kans (yaku 19).
pub fn three_kans(rng: &mut Rng) -> Plan {
    let all: Vec<u8> = (0..34).collect();
    let kinds = different(rng, &all, 4);
    let groups = [Triplet(kinds[0]), Triplet(kinds[1]), Triplet(kinds[2]), any_group(rng)];
    Plan::regular(rng, &groups, kinds[3], Open::Kans(3))
}

/// Two dragon triplets and a dragon pair (yaku 24).
pub fn little_dragons(rng: &mut Rng) -> Plan {
    let dragons = different(rng, &[WHITE, HATSU, 33], 3);
    let wind = Triplet(rng.within(EAST, EAST + 3));
    let last = if rng.percent(40) { wind } else { any_group(rng) };
    let groups = [Triplet(dragons[0]), Triplet(dragons[1]), any_group(rng), last];
    let open = Open::any(rng);
    Plan::regular(rng, &groups, dragons[2], open)
}

/// Up to four melds of one kind.
pub fn melds_of_a_kind(rng: &mut Rng) -> Plan {
    let kind = rng.pick(&[CHI, PON, PON, OPEN_KAN, CLOSED_KAN]);
    let count = rng.pick(&[1, 2, 3, 4, 4, 4]);
    let mut groups = Vec::new();
    for at in 0..4 {
        let run = (at < count) == (kind == CHI);
        groups.push(if run { any_run(rng) } else { Triplet(rng.within(0, 33)) });
    }
    let pair = rng.within(0, 33);
    Plan::regular(rng, &groups, pair, Open::Kind(kind))
}

/// Ron on a hand that reads as the same triplet in three suits or as three concealed triplets:
/// two readings that may tie in gain, h and fu (yaku 16 or 18).
pub fn triplets_or_suits(rng: &mut Rng) -> Plan {
    let suits = different(rng, &[0, 9, 18], 3);
    let low = rng.within(0, 5);
    let kind = low + rng.pick(&[0, 3]);
    let others = [Triplet(suits[1] + kind), Triplet(suits[2] + kind)];
    let mut plan = Plan::regular(rng, &others, suits[0] + low, Open::ClosedKans);
    plan.tiles.extend([0, 1, 2, 3, 3, 3].map(|step| suits[0] + low + step));
    Plan { how: Some(RON), winning: Some(suits[0] + kind), ..plan }
}
