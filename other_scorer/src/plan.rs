//! A plan for a hand: its melds, its other tiles, and what is wished of the win.

use crate::reading::Group;
use crate::record::{Meld, CHI, CLOSED_KAN, OPEN_KAN, PON};
use crate::rng::Rng;

/// The tiles of a hand, and fields that must have a given value.
#[derive(Clone, Debug, Default)]
pub struct Plan {
    pub melds: Vec<Meld>,
    pub tiles: Vec<u8>,
    pub winning: Option<u8>,
    pub how: Option<u8>,
    pub riichi: Option<u8>,
    pub situation: Option<u8>,
}

/// Which groups become melds.
#[derive(Clone, Copy, Debug)]
pub enum Open {
    /// None.
    No,
    /// Some triplets, as closed kans.
    ClosedKans,
    /// About half, in any form.
    Half,
    /// All, in any form.
    All,
    /// The first so many triplets as kans, about a third of the rest in any form.
    Kans(usize),
    /// Every group that can take this meld kind.
    Kind(u8),
}

impl Open {
    /// A random choice that covers closed and open hands.
    pub fn any(rng: &mut Rng) -> Open {
        match rng.below(20) {
            0..=8 => Open::No,
            9..=10 => Open::ClosedKans,
            11..=16 => Open::Half,
            17 => Open::All,
            _ => Open::Kans(1 + rng.below(2)),
        }
    }

    /// A random choice that keeps the hand closed.
    pub fn closed(rng: &mut Rng) -> Open {
        if rng.percent(70) {
            Open::No
        } else {
            Open::ClosedKans
        }
    }

    /// The meld kind for a group, if it becomes a meld; `kans` counts kans made so far.
    fn meld(self, rng: &mut Rng, group: Group, kans: usize) -> Option<u8> {
        let run = matches!(group, Group::Run(_));
        let any = if run { CHI } else { rng.within(PON, CLOSED_KAN) };
        match self {
            Open::No => None,
            Open::ClosedKans => (!run && rng.percent(50)).then_some(CLOSED_KAN),
            Open::Half => rng.percent(50).then_some(any),
            Open::All => Some(any),
            Open::Kans(n) if !run && kans < n => Some(rng.pick(&[OPEN_KAN, CLOSED_KAN])),
            Open::Kans(_) => rng.percent(33).then_some(if run { CHI } else { PON }),
            Open::Kind(kind) => (run == (kind == CHI)).then_some(kind),
        }
    }
}

impl Plan {
    /// A plan from four groups and a pair.
    pub fn regular(rng: &mut Rng, groups: &[Group], pair: u8, open: Open) -> Plan {
        let mut plan = Plan { tiles: vec![pair, pair], ..Plan::default() };
        let mut groups = groups.to_vec();
        rng.shuffle(&mut groups);
        let mut kans = 0;
        for group in groups {
            match open.meld(rng, group, kans) {
                Some(kind) => {
                    let meld = Meld { kind, tile: group.tiles()[0] };
                    kans += meld.is_kan() as usize;
                    plan.melds.push(meld);
                }
                None => plan.tiles.extend(group.tiles()),
            }
        }
        plan
    }

    /// A plan from 14 concealed tiles, the winning tile among them.
    pub fn loose(tiles: Vec<u8>) -> Plan {
        Plan { tiles, ..Plan::default() }
    }

    /// The plan with one concealed tile replaced, so that it may no longer win.
    pub fn spoiled(mut self, rng: &mut Rng) -> Plan {
        let at = rng.below(self.tiles.len());
        self.tiles[at] = match rng.below(3) {
            0 => rng.within(0, 33),
            1 => self.tiles[at].saturating_sub(1),
            _ => (self.tiles[at] + 1).min(33),
        };
        self
    }
}
