//! Themes of runs and random groups.

use super::{any_group, any_run, run_in};
use crate::plan::{Open, Plan};
use crate::reading::Group::{Run, Triplet};
use crate::record::CLOSED_KAN;
use crate::rng::Rng;

/// Random groups and pair.
pub fn ordinary(rng: &mut Rng) -> Plan {
    let groups = [(); 4].map(|_| any_group(rng));
    let (pair, open) = (rng.within(0, 33), Open::any(rng));
    Plan::regular(rng, &groups, pair, open)
}

/// Groups and pair of simples (yaku 2).
pub fn simples(rng: &mut Rng) -> Plan {
    let groups = [(); 4].map(|_| match rng.below(3) {
        0 => Triplet(9 * rng.within(0, 2) + rng.within(1, 7)),
        _ => run_in(rng, 1, 5),
    });
    let (pair, open) = (9 * rng.within(0, 2) + rng.within(1, 7), Open::any(rng));
    Plan::regular(rng, &groups, pair, open)
}

/// Four runs and any pair, closed (yaku 4).
pub fn four_runs(rng: &mut Rng) -> Plan {
    let groups = [(); 4].map(|_| any_run(rng));
    let pair = rng.within(0, 33);
    Plan::regular(rng, &groups, pair, Open::No)
}

/// Four runs, some of them open: often no yaku, or an open 20 fu.
pub fn four_runs_open(rng: &mut Rng) -> Plan {
    let groups = [(); 4].map(|_| any_run(rng));
    let pair = rng.within(0, 30);
    Plan::regular(rng, &groups, pair, Open::Half)
}

/// A run held twice (yaku 5).
pub fn twin(rng: &mut Rng) -> Plan {
    let run = any_run(rng);
    let groups = [run, run, any_group(rng), any_group(rng)];
    let pair = rng.within(0, 33);
    let open = if rng.percent(80) { Open::closed(rng) } else { Open::Half };
    Plan::regular(rng, &groups, pair, open)
}

/// A run held three times (yaku 5).
pub fn thrice(rng: &mut Rng) -> Plan {
    let run = any_run(rng);
    let groups = [run, run, run, any_group(rng)];
    let (pair, open) = (rng.within(0, 33), Open::closed(rng));
    Plan::regular(rng, &groups, pair, open)
}

/// Two runs held twice, or one four times (yaku 21).
pub fn two_twins(rng: &mut Rng) -> Plan {
    let run = any_run(rng);
    let other = if rng.percent(20) { run } else { any_run(rng) };
    let pair = rng.within(0, 33);
    let open = if rng.percent(85) { Open::No } else { Open::Half };
    Plan::regular(rng, &[run, run, other, other], pair, open)
}

/// The same run in three suits (yaku 13).
pub fn three_suits(rng: &mut Rng) -> Plan {
    let low = rng.within(0, 6);
    let groups = [Run(low), Run(low + 9), Run(low + 18), any_group(rng)];
    let (pair, open) = (rng.within(0, 33), Open::any(rng));
    Plan::regular(rng, &groups, pair, open)
}

/// 123 456 789 of a suit (yaku 14).
pub fn straight(rng: &mut Rng) -> Plan {
    let suit = 9 * rng.within(0, 2);
    let groups = [Run(suit), Run(suit + 3), Run(suit + 6), any_group(rng)];
    let (pair, open) = (rng.within(0, 33), Open::any(rng));
    Plan::regular(rng, &groups, pair, open)
}

/// Groups from a few neighbouring kinds of one suit, which gives many readings.
pub fn dense(rng: &mut Rng) -> Plan {
    let suit = 9 * rng.within(0, 2);
    let width = rng.within(3, 6);
    let low = suit + rng.within(0, 9 - width);
    let high = low + width - 1;
    let mut groups = [(); 4].map(|_| match rng.below(3) {
        0 => Triplet(rng.within(low, high)),
        _ => Run(rng.within(low, high - 2)),
    });
    if rng.percent(40) {
        groups[3] = any_group(rng);
    }
    let pair = if rng.percent(70) { rng.within(low, high) } else { rng.within(0, 33) };
    let open = if rng.percent(70) { Open::No } else { Open::any(rng) };
    Plan::regular(rng, &groups, pair, open)
}

/// Three kinds in a row, three tiles of each, which read as runs or as triplets.
pub fn block(rng: &mut Rng) -> Plan {
    let low = 9 * rng.within(0, 2) + rng.within(0, 6);
    let groups = [Run(low), Run(low), Run(low), any_group(rng)];
    let (pair, open) = (rng.within(0, 33), rng.pick(&[Open::No, Open::Kind(CLOSED_KAN)]));
    Plan::regular(rng, &groups, pair, open)
}
