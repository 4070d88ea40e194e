//! Themes: each builds plans for hands of one sort, so that rare yaku come up often enough.

pub mod kinds;
pub mod runs;
pub mod triplets;
pub mod winning;
pub mod yakuman;

use crate::plan::{Open, Plan};
use crate::reading::Group::{self, Run, Triplet};
use crate::rng::Rng;

/// A maker of plans.
pub type Theme = fn(&mut Rng) -> Plan;

/// All themes; the generator takes them in turn.
pub const THEMES: [Theme; 43] = [
    runs::ordinary,
    runs::simples,
    runs::four_runs,
    runs::four_runs_open,
    runs::twin,
    runs::thrice,
    runs::two_twins,
    runs::three_suits,
    runs::straight,
    runs::dense,
    runs::block,
    triplets::value,
    triplets::winds_and_runs,
    triplets::three_triplets,
    triplets::four_triplets,
    triplets::three_concealed,
    triplets::three_kans,
    triplets::little_dragons,
    triplets::melds_of_a_kind,
    triplets::triplets_or_suits,
    kinds::yaochu_each,
    kinds::terminals_each,
    kinds::only_yaochu,
    kinds::suit_and_honours,
    kinds::one_suit,
    kinds::seven_pairs,
    kinds::sorted_pairs,
    yakuman::big_dragons,
    yakuman::little_winds,
    yakuman::big_winds,
    yakuman::four_concealed,
    yakuman::four_kans,
    yakuman::honours_only,
    yakuman::honour_pairs,
    yakuman::terminals_only,
    yakuman::all_green,
    yakuman::nine_gates,
    yakuman::orphans,
    winning::chankan,
    winning::rinshan,
    winning::last_tile,
    winning::first_turn,
    winning::double_riichi,
];

/// A random run.
fn any_run(rng: &mut Rng) -> Group {
    run_in(rng, 0, 6)
}

/// A random run whose lowest rank less 1 is from low to high.
fn run_in(rng: &mut Rng, low: u8, high: u8) -> Group {
    Run(9 * rng.within(0, 2) + rng.within(low, high))
}

/// A random group.
fn any_group(rng: &mut Rng) -> Group {
    if rng.percent(60) {
        any_run(rng)
    } else {
        Triplet(rng.within(0, 33))
    }
}

/// Different kinds from a list, in random order.
fn different(rng: &mut Rng, list: &[u8], count: usize) -> Vec<u8> {
    let mut kinds = list.to_vec();
    rng.shuffle(&mut kinds);
    kinds.truncate(count);
    kinds
}

/// Triplets of the kinds but the last, which is the pair.
fn triplets_and_pair(rng: &mut Rng, kinds: &[u8], open: Open) -> Plan {
    let (pair, rest) = kinds.split_last().expect("kinds");
    let groups: Vec<Group> = rest.iter().map(|&kind| Triplet(kind)).collect();
    Plan::regular(rng, &groups, *pair, open)
}
