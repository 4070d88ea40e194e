//! Readings against a plain search over all choices, and their order (01, Readings).

use other_scorer::deal::{near, themed};
use other_scorer::reading::{readings, Group, Reading};
use other_scorer::rng::Rng;

/// A group's code: a run its lowest kind, a triplet 34 + kind (01, Readings).
fn code(group: &Group) -> u8 {
    match group {
        Group::Run(low) => *low,
        Group::Triplet(kind) => 34 + kind,
    }
}

/// A regular reading as numbers: pair kind, codes, place.
fn numbers(reading: &Reading) -> Option<(u8, Vec<u8>, usize)> {
    match reading {
        Reading::Regular { pair, groups, place } => Some((*pair, groups.iter().map(code).collect(), *place)),
        _ => None,
    }
}

/// All ways to take groups with codes from `low` up from a tally, until it is empty.
fn choose(tally: [i8; 34], low: u8, codes: &mut Vec<u8>, found: &mut Vec<Vec<u8>>) {
    if tally.iter().all(|&count| count == 0) {
        found.push(codes.clone());
        return;
    }
    for code in low..68 {
        let run = code < 34;
        if run && (code > 24 || code % 9 > 6) {
            continue;
        }
        let kind = (code % 34) as usize;
        let mut left = tally;
        for step in 0..3 {
            left[if run { kind + step } else { kind }] -= 1;
        }
        if left.iter().all(|&count| count >= 0) {
            codes.push(code);
            choose(left, code, codes, found);
            codes.pop();
        }
    }
}

/// All regular readings, by trying every pair kind and every ascending list of codes.
fn plain(tiles: &[u8], winning: u8) -> Vec<(u8, Vec<u8>, usize)> {
    let mut tally = [0i8; 34];
    tiles.iter().for_each(|&tile| tally[tile as usize] += 1);
    let mut all = Vec::new();
    for pair in 0..34u8 {
        let mut left = tally;
        left[pair as usize] -= 2;
        if left[pair as usize] < 0 {
            continue;
        }
        let mut found = Vec::new();
        choose(left, 0, &mut Vec::new(), &mut found);
        for codes in found {
            if pair == winning {
                all.push((pair, codes.clone(), 0));
            }
            for (at, &code) in codes.iter().enumerate() {
                let run = code < 34 && (code..code + 3).contains(&winning);
                let holds = run || code == 34 + winning;
                if holds {
                    all.push((pair, codes.clone(), at + 1));
                }
            }
        }
    }
    all
}

#[test]
fn same_as_a_plain_search_in_the_same_order() {
    let mut rng = Rng::new(3);
    for turn in 0..6000 {
        let hand = if turn % 3 == 0 { near(&mut rng) } else { themed(&mut rng) };
        let mut tiles = hand.concealed().to_vec();
        tiles.push(hand.winning);
        let all = readings(hand.concealed(), hand.winning);
        let regular: Vec<_> = all.iter().filter_map(numbers).collect();
        assert_eq!(regular, plain(&tiles, hand.winning));
        let last = all.len().saturating_sub(1);
        assert!(all.iter().take(last).all(|reading| numbers(reading).is_some()));
    }
}

#[test]
fn equal_groups_are_separate_places() {
    let all = readings(&[0, 0, 1, 1, 2, 12, 13, 14, 21, 22, 23, 27, 27], 2);
    let places: Vec<_> = all.iter().filter_map(numbers).map(|one| one.2).collect();
    assert_eq!(places, vec![1, 2]);
}

#[test]
fn seven_pairs_come_after_regular_readings() {
    let all = readings(&[0, 0, 1, 1, 2, 2, 12, 12, 13, 13, 14, 14, 27], 27);
    assert_eq!(all.len(), 2);
    assert_eq!(all[1], Reading::SevenPairs);
    assert_eq!(readings(&[0, 0, 0, 0, 4, 4, 6, 6, 10, 10, 13, 13, 16], 16), vec![]);
}
