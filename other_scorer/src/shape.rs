//! A regular reading together with the melds: four sets, a pair and a wait.

use crate::reading::Group;
use crate::record::{CHI, CLOSED_KAN};
use crate::tiles::{is_honour, is_yaochu, rank};
use crate::win::Win;

#[derive(Clone, Copy, Debug, PartialEq, Eq)]
pub enum Wait {
    Pair,
    Middle,
    Edge,
    TwoSided,
    Triplet,
}

#[derive(Clone, Copy, Debug, PartialEq, Eq)]
pub struct Set {
    pub group: Group,
    pub kan: bool,
    pub concealed: bool,
}

#[derive(Clone, Debug)]
pub struct Shape {
    pub sets: Vec<Set>,
    pub pair: u8,
    pub wait: Wait,
}

impl Set {
    /// The kind of a triplet or kan (01, Yaku: a triplet includes a kan).
    pub fn triplet(&self) -> Option<u8> {
        match self.group {
            Group::Triplet(kind) => Some(kind),
            Group::Run(_) => None,
        }
    }

    /// The lowest kind of a run (01, Readings).
    pub fn run(&self) -> Option<u8> {
        match self.group {
            Group::Run(low) => Some(low),
            Group::Triplet(_) => None,
        }
    }
}

/// The wait a place makes (01, Fu and points).
fn wait_at(groups: &[Group], place: usize, winning: u8) -> Wait {
    if place == 0 {
        return Wait::Pair;
    }
    match groups[place - 1] {
        Group::Triplet(_) => Wait::Triplet,
        Group::Run(low) if winning == low + 1 => Wait::Middle,
        Group::Run(low) if rank(low) == 1 && winning == low + 2 => Wait::Edge,
        Group::Run(low) if rank(low) == 7 && winning == low => Wait::Edge,
        Group::Run(_) => Wait::TwoSided,
    }
}

impl Shape {
    /// The sets of a regular reading and of the melds; a triplet completed by ron is open (01, Readings).
    pub fn new(win: &Win, pair: u8, groups: &[Group], place: usize) -> Shape {
        let mut sets = Vec::new();
        for (at, &group) in groups.iter().enumerate() {
            let concealed = !(win.ron && at + 1 == place);
            sets.push(Set { group, kan: false, concealed });
        }
        for meld in win.hand.melds() {
            let group = match meld.kind {
                CHI => Group::Run(meld.tile),
                _ => Group::Triplet(meld.tile),
            };
            sets.push(Set { group, kan: meld.is_kan(), concealed: meld.kind == CLOSED_KAN });
        }
        Shape { sets, pair, wait: wait_at(groups, place, win.hand.winning) }
    }

    /// The kinds of all triplets and kans (01, Yaku).
    pub fn triplets(&self) -> Vec<u8> {
        self.sets.iter().filter_map(Set::triplet).collect()
    }

    /// The lowest kinds of all runs, ascending (01, Yaku).
    pub fn runs(&self) -> Vec<u8> {
        let mut runs: Vec<u8> = self.sets.iter().filter_map(Set::run).collect();
        runs.sort();
        runs
    }

    /// Triplets and kans that are concealed (01, Readings).
    pub fn concealed_triplets(&self) -> usize {
        self.sets.iter().filter(|set| set.concealed && set.triplet().is_some()).count()
    }

    /// Open and closed kans (01, Yaku, 19 and 31).
    pub fn kans(&self) -> usize {
        self.sets.iter().filter(|set| set.kan).count()
    }

    /// Whether every group and the pair hold a yaochu, a run among them (01, Yaku, 15 and 22).
    pub fn yaochu_in_each(&self) -> bool {
        is_yaochu(self.pair)
            && self.sets.iter().all(|set| set.group.tiles().iter().any(|&tile| is_yaochu(tile)))
            && self.sets.iter().any(|set| set.run().is_some())
    }

    /// Whether the pair or a triplet is of honours (01, Yaku, 15).
    pub fn has_honour(&self) -> bool {
        is_honour(self.pair) || self.triplets().iter().any(|&kind| is_honour(kind))
    }

    /// Wait fu on the pair, the middle of a run, 3 of 123, 7 of 789 (01, Fu and points).
    pub fn wait_fu(&self) -> u8 {
        match self.wait {
            Wait::Pair | Wait::Middle | Wait::Edge => 2,
            Wait::TwoSided | Wait::Triplet => 0,
        }
    }

    /// Pinfu: closed, four runs, the place a run with no wait fu, pair no value tile (01, Yaku, 4).
    pub fn is_pinfu(&self, win: &Win) -> bool {
        win.closed && self.runs().len() == 4 && self.wait == Wait::TwoSided && win.worth(self.pair) == 0
    }
}
