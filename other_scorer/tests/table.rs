//! Lines 1 to 12 of document 01's table of hands.

use other_scorer::codec::pack;
use other_scorer::notation::hand;
use other_scorer::record::{CHI, RON, TSUMO};
use other_scorer::{points, score, Scored};

const NORTH: u8 = 30;

/// Scores a hand with dealer 0, East, indicator North, ron from seat 3 (01, Table of hands).
fn line(concealed: &str, winning: &str, melds: &[(u8, &str)], how: u8, winner: u8) -> Scored {
    let mut hand = hand(concealed, winning, melds);
    hand.how = how;
    hand.winner = winner;
    hand.discarder = if how == RON { 3 } else { 0 };
    hand.indicator = NORTH;
    score(&pack(&hand), 0, 0)
}

/// The yaku numbers of a set.
fn numbers(scored: &Scored) -> Vec<u8> {
    (0..64).filter(|n| scored.yaku >> n & 1 == 1).collect()
}

#[test]
fn line_1_2_3() {
    let hand = "234567m 345p 678s 22s";
    let ron = line(hand, "8s", &[], RON, 1);
    assert_eq!((ron.refusal, ron.changes), (0, [0, 2000, 0, -2000]));
    assert_eq!((ron.h, ron.fu, numbers(&ron)), (2, 30, vec![2, 4]));
    let tsumo = line(hand, "8s", &[], TSUMO, 1);
    assert_eq!(tsumo.changes, [-1300, 2700, -700, -700]);
    let dealer = line(hand, "8s", &[], RON, 0);
    assert_eq!(dealer.changes, [2900, 0, 0, -2900]);
}

#[test]
fn line_4() {
    let tsumo = line("111222333m 789s 99p", "9s", &[], TSUMO, 1);
    assert_eq!((tsumo.h, tsumo.changes), (6, [-6000, 12000, -3000, -3000]));
    assert_eq!(numbers(&tsumo), vec![1, 4, 5, 22]);
}

#[test]
fn line_5() {
    let ron = line("112233m 778899p 55s", "5s", &[], RON, 1);
    assert_eq!((ron.h, ron.fu, ron.changes), (3, 40, [0, 5200, 0, -5200]));
    assert_eq!(numbers(&ron), vec![21]);
}

#[test]
fn line_6() {
    let ron = line("567m 456p 678s 22p", "8s", &[(CHI, "2m")], RON, 1);
    assert_eq!((ron.h, ron.fu, ron.changes), (1, 30, [0, 1000, 0, -1000]));
}

#[test]
fn line_7() {
    let ron = line("456p 789s 234s 99p", "9s", &[(CHI, "1m")], RON, 1);
    assert_eq!((ron.refusal, ron.h, ron.fu, ron.yaku, ron.changes), (7, 0, 0, 0, [0; 4]));
}

#[test]
fn line_8_9() {
    let hand = "111m 333p 555s 777s 99s";
    let ron = line(hand, "7s", &[], RON, 1);
    assert_eq!((ron.h, ron.fu, ron.changes), (4, 50, [0, 8000, 0, -8000]));
    assert_eq!(numbers(&ron), vec![17, 18]);
    let tsumo = line(hand, "7s", &[], TSUMO, 1);
    assert_eq!((tsumo.h, tsumo.fu, tsumo.changes), (0, 0, [-16000, 32000, -8000, -8000]));
    assert_eq!(numbers(&tsumo), vec![30]);
}

#[test]
fn line_10() {
    assert_eq!(points::ron(points::basic(4, 30), 1, 3, 0), [0, 7700, 0, -7700]);
    assert_eq!(points::ron(points::basic(4, 40), 1, 3, 0), [0, 8000, 0, -8000]);
}

#[test]
fn line_11() {
    for (h, paid) in [(5, 8000), (6, 12000), (7, 12000), (8, 16000), (10, 16000), (11, 24000)] {
        assert_eq!(points::ron(points::basic(h, 30), 1, 3, 0), [0, paid, 0, -paid], "h {h}");
    }
}

#[test]
fn line_12() {
    let ron = line("1111m 44m 77m 22p 55p 88p", "8p", &[], RON, 1);
    assert_eq!((ron.refusal, ron.h, ron.fu, ron.yaku, ron.changes), (6, 0, 0, 0, [0; 4]));
}
