//! All readings of a hand, in order (01, Readings).

use crate::tiles::{starts_run, YAOCHU};

/// A group; the derived order is the order of the codes: runs by lowest kind, then triplets (01, Readings).
#[derive(Clone, Copy, Debug, PartialEq, Eq, PartialOrd, Ord)]
pub enum Group {
    Run(u8),
    Triplet(u8),
}

/// A reading; the derived order is document 01's. Place 0 is the pair, place i group i (01, Readings).
#[derive(Clone, Debug, PartialEq, Eq, PartialOrd, Ord)]
pub enum Reading {
    Regular { pair: u8, groups: Vec<Group>, place: usize },
    SevenPairs,
    ThirteenOrphans,
}

impl Group {
    /// The three tiles of a group (01, Readings).
    pub fn tiles(self) -> [u8; 3] {
        match self {
            Group::Run(low) => [low, low + 1, low + 2],
            Group::Triplet(kind) => [kind; 3],
        }
    }
}

/// The tiles left when some are taken away; none if one is missing (01, Readings).
fn without(tiles: &[u8], taken: &[u8]) -> Option<Vec<u8>> {
    let mut left = tiles.to_vec();
    for tile in taken {
        let at = left.iter().position(|kind| kind == tile)?;
        left.remove(at);
    }
    Some(left)
}

/// Places the lowest tile left in the pair, a triplet or a run, each way in turn (01, Readings).
fn split(tiles: &[u8], pair: Option<u8>, groups: &[Group], found: &mut Vec<(u8, Vec<Group>)>) {
    let Some(&low) = tiles.first() else {
        if let Some(pair) = pair {
            let mut sorted = groups.to_vec();
            sorted.sort();
            found.push((pair, sorted));
        }
        return;
    };
    if pair.is_none() {
        if let Some(left) = without(tiles, &[low; 2]) {
            split(&left, Some(low), groups, found);
        }
    }
    for group in [Group::Triplet(low), Group::Run(low)] {
        if matches!(group, Group::Run(_)) && !starts_run(low) {
            continue;
        }
        if let Some(left) = without(tiles, &group.tiles()) {
            split(&left, pair, &[groups, &[group]].concat(), found);
        }
    }
}

/// Seven different kinds, each twice (01, Readings).
fn is_seven_pairs(sorted: &[u8]) -> bool {
    let mut kinds = sorted.to_vec();
    kinds.dedup();
    kinds.len() == 7 && sorted.len() == 14 && sorted.chunks(2).all(|two| two[0] == two[1])
}

/// All 13 yaochu kinds, one twice (01, Readings).
fn is_thirteen_orphans(sorted: &[u8]) -> bool {
    let mut kinds = sorted.to_vec();
    kinds.dedup();
    kinds == YAOCHU && sorted.len() == 14
}

/// Every reading of the concealed tiles with the winning tile, sorted, none twice (01, Readings).
pub fn readings(concealed: &[u8], winning: u8) -> Vec<Reading> {
    let mut tiles = concealed.to_vec();
    tiles.push(winning);
    tiles.sort();
    let mut found = Vec::new();
    split(&tiles, None, &[], &mut found);
    let mut all = Vec::new();
    for (pair, groups) in found {
        for place in 0..=groups.len() {
            let holds = match place {
                0 => pair == winning,
                _ => groups[place - 1].tiles().contains(&winning),
            };
            if holds {
                all.push(Reading::Regular { pair, groups: groups.clone(), place });
            }
        }
    }
    if is_seven_pairs(&tiles) {
        all.push(Reading::SevenPairs);
    }
    if is_thirteen_orphans(&tiles) {
        all.push(Reading::ThirteenOrphans);
    }
    all.sort();
    all.dedup();
    all
}
