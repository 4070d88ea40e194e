//! Yakuman 26 to 36 (01, Yaku).

use crate::record::FIRST_TURN;
use crate::shape::Shape;
use crate::tiles::{is_dragon, is_honour, is_terminal, is_wind, rank, suit, GREEN};
use crate::win::Win;

/// The ranks of nine gates, before the one more (01, Yaku, 35).
const GATES: [u8; 13] = [1, 1, 1, 2, 3, 4, 5, 6, 7, 8, 9, 9, 9];

/// Yakuman from the first turn: 26 and 27 (01, Yaku).
pub fn of_winning(win: &Win) -> Vec<u8> {
    match (win.hand.situation == FIRST_TURN, win.hand.winner == win.dealer) {
        (false, _) => vec![],
        (true, true) => vec![26],
        (true, false) => vec![27],
    }
}

/// Yakuman from the kinds held: 32 to 35 (01, Yaku).
pub fn of_kinds(win: &Win) -> Vec<u8> {
    let held = &win.held;
    let tests = [
        (32, held.iter().all(|&tile| is_honour(tile))),
        (33, held.iter().all(|&tile| is_terminal(tile))),
        (34, held.iter().all(|tile| GREEN.contains(tile))),
        (35, win.hand.m == 0 && is_nine_gates(held)),
    ];
    passed(&tests)
}

/// Yakuman from the groups and the pair of a regular reading: 28 to 31 (01, Yaku).
pub fn of_shape(win: &Win, shape: &Shape) -> Vec<u8> {
    let triplets = shape.triplets();
    let dragons = triplets.iter().filter(|&&kind| is_dragon(kind)).count();
    let winds = triplets.iter().filter(|&&kind| is_wind(kind)).count();
    let tests = [
        (28, dragons == 3),
        (29, winds == 4 || winds == 3 && is_wind(shape.pair)),
        (30, win.closed && shape.concealed_triplets() == 4),
        (31, shape.kans() == 4),
    ];
    passed(&tests)
}

/// The yakuman whose test holds.
fn passed(tests: &[(u8, bool)]) -> Vec<u8> {
    tests.iter().filter(|test| test.1).map(|test| test.0).collect()
}

/// One suit's 1112345678999 and one more of it (01, Yaku, 35).
fn is_nine_gates(held: &[u8]) -> bool {
    let Some(first) = suit(held[0]) else { return false };
    let mut ranks: Vec<u8> = held.iter().map(|&tile| rank(tile)).collect();
    for gate in GATES {
        match ranks.iter().position(|&rank| rank == gate) {
            Some(at) => ranks.remove(at),
            None => return false,
        };
    }
    held.iter().all(|&tile| suit(tile) == Some(first))
}
