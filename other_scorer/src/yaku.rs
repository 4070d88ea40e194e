//! Yaku 1 to 25, each with its han (01, Yaku).

use crate::record::{CHANKAN, LAST_TILE, RINSHAN};
use crate::shape::Shape;
use crate::tiles::{is_dragon, is_honour, is_yaochu, suit};
use crate::win::Win;

/// A yaku by number, and its han.
pub type Yaku = (u8, u8);

/// One han less when the hand is open (01, Yaku, "−1").
fn less_open(win: &Win, han: u8) -> u8 {
    if win.closed {
        han
    } else {
        han - 1
    }
}

/// Yaku from how the hand was won: 1, 6 to 11 (01, Yaku).
pub fn of_winning(win: &Win) -> Vec<Yaku> {
    let hand = &win.hand;
    let last = hand.situation == LAST_TILE;
    let tests = [
        (1, 1, win.closed && !win.ron),
        (6, 1, hand.situation == CHANKAN),
        (7, 1, hand.situation == RINSHAN),
        (8, 1, last && !win.ron),
        (9, 1, last && win.ron),
        (10, 1, win.closed && hand.riichi == 1),
        (11, 2, win.closed && hand.riichi == 2),
    ];
    passed(&tests)
}

/// Yaku from the kinds held: 2, 20, 23, 25; seven pairs too (01, Yaku).
pub fn of_kinds(win: &Win) -> Vec<Yaku> {
    let held = &win.held;
    let mut suits: Vec<u8> = held.iter().filter_map(|&tile| suit(tile)).collect();
    suits.sort();
    suits.dedup();
    let honours = held.iter().any(|&tile| is_honour(tile));
    let tests = [
        (2, 1, !held.iter().any(|&tile| is_yaochu(tile))),
        (20, 2, held.iter().all(|&tile| is_yaochu(tile))),
        (23, less_open(win, 3), suits.len() == 1 && honours),
        (25, less_open(win, 6), suits.len() == 1 && !honours),
    ];
    passed(&tests)
}

/// Yaku from the groups and the pair of a regular reading (01, Yaku).
pub fn of_shape(win: &Win, shape: &Shape) -> Vec<Yaku> {
    let runs = shape.runs();
    let triplets = shape.triplets();
    let little_dragons = is_little_dragons(shape);
    let value = value_han(win, &triplets, little_dragons);
    let twins = twin_runs(&runs);
    let each = shape.yaochu_in_each();
    let honour = shape.has_honour();
    let tests = [
        (3, value, value > 0),
        (4, 1, shape.is_pinfu(win)),
        (5, 1, win.closed && twins == 1),
        (13, less_open(win, 2), (0..7).any(|r| all_in(&runs, [r, r + 9, r + 18]))),
        (14, less_open(win, 2), [0, 9, 18].iter().any(|&s| all_in(&runs, [s, s + 3, s + 6]))),
        (15, less_open(win, 2), each && honour),
        (16, 2, (0..9).any(|r| all_in(&triplets, [r, r + 9, r + 18]))),
        (17, 2, triplets.len() == 4),
        (18, 2, shape.concealed_triplets() >= 3),
        (19, 2, shape.kans() >= 3),
        (21, 3, win.closed && twins == 2),
        (22, less_open(win, 3), each && !honour),
        (24, 4, little_dragons),
    ];
    passed(&tests)
}

/// The yaku whose test holds.
fn passed(tests: &[(u8, u8, bool)]) -> Vec<Yaku> {
    tests.iter().filter(|test| test.2).map(|test| (test.0, test.1)).collect()
}

/// Whether all three kinds are in the list (01, Yaku, 13, 14 and 16).
fn all_in(list: &[u8], three: [u8; 3]) -> bool {
    three.iter().all(|kind| list.contains(kind))
}

/// Two dragon triplets and a dragon pair (01, Yaku, 24).
fn is_little_dragons(shape: &Shape) -> bool {
    let dragons = shape.triplets().iter().filter(|&&kind| is_dragon(kind)).count();
    is_dragon(shape.pair) && dragons == 2
}

/// The han of yaku 3; with 24 its dragon triplets are left out (01, Yaku, 3 and 24).
fn value_han(win: &Win, triplets: &[u8], little_dragons: bool) -> u8 {
    let counted = triplets.iter().filter(|&&kind| !(little_dragons && is_dragon(kind)));
    counted.map(|&kind| win.worth(kind)).sum()
}

/// How many twin runs: a run held two or three times is one, four times two (01, Yaku, 5 and 21).
fn twin_runs(runs: &[u8]) -> usize {
    let mut kinds = runs.to_vec();
    kinds.dedup();
    kinds.iter().map(|kind| runs.iter().filter(|&run| run == kind).count() / 2).sum()
}
