//! The lowest score a fresh game can reach (01, The game; 02, S-5 to S-8 and S-11).
//!
//! The floor of a score counts a stick for each of 200 hands. Under S-11 a seat that pays three yakuman has no points for the next
//! stick, so that no list of entries gets there any more. The lowest score there is:
//! - The k-th hand takes at most 112,000 + 300 (k - 1) from a seat: a multiple ron has one payer, a dealer and two children win at
//!   most 48,000 and twice 32,000, and the counter is at most the hands finished. A feeder pays half of what it would as the
//!   discarder; any other win takes at most 48,000 and counters, a chombo or a draw at most 9,000.
//! - Before any hand is finished a seat has 30,000, or 29,000 if it has declared. After a later riichi it has 0 or more, which is more
//!   than 29,000 less what the first hand may take.
//! - So a score is never under 29,000 less what the hands finished may take: after 200, -28,341,000. Seat 1 gets there that declares
//!   in the first hand and discards into three yakuman in each.

mod chance;

use other_scorer::codec::pack;
use other_scorer::notation::parse;
use other_scorer::points::{basic, ron, tsumo, YAKUMAN};
use other_scorer::position::{book, FLOOR};
use other_scorer::rng::Rng;
use other_scorer::{Entry, Game, Position};

/// The lowest score that a list of entries reaches.
const LOWEST: i32 = -28_341_000;

/// What so many hands take from a seat at most: 112,000 each, and 300 for each counter, one more a hand.
fn most(hands: i32) -> i32 {
    112_000 * hands + 300 * (hands * (hands - 1) / 2)
}

/// The lowest score of a seat after so many hands: with one stick gone.
fn lowest(hands: i32) -> i32 {
    29_000 - most(hands)
}

/// The same tiles of the dealer and of seats 2 and 3 by ron from seat 1, without riichi.
fn three(tiles: &str) -> Entry {
    let records = ["seat=0", "seat=2", "seat=3"].map(|seat| pack(&parse(&[tiles, seat, "ron=1"]).expect("a hand")));
    Entry::MultiRon { number: 3, records: records.concat() }
}

/// Thirteen orphans: seat 1 pays 48,000, twice 32,000 and the counters.
fn yakuman() -> Entry {
    three("19m19p19s1234677z+5z")
}

#[test]
fn the_worst_list_reaches_the_lowest_score() {
    let win = yakuman();
    let mut position = Position::fresh();
    assert_eq!((book(&mut position, &Entry::Riichi(1)), position.scores[1]), (0, lowest(0)));
    for hand in 1..=200 {
        assert_eq!(book(&mut position, &win), 0);
        assert_eq!((position.scores[1], position.counter, position.total()), (lowest(hand), hand as u32, 120_000));
        let before = position;
        assert_eq!((book(&mut position, &Entry::Riichi(1)), position), (if hand < 200 { 21 } else { 9 }, before));
    }
    // Seat 2 is the first after seat 1, and takes the stick and the counters.
    assert_eq!(position.scores, [9_630_000, LOWEST, 12_401_000, 6_430_000]);
    assert_eq!(
        (position.hands, position.over, position.dealer, position.wind, position.sticks, position.counter),
        (200, true, 0, 0, 0, 200)
    );
    assert_eq!((FLOOR, LOWEST - FLOOR), (-28_540_000, 199 * 1000));
    for entry in [Entry::Riichi(1), win, Entry::Draw(8), Entry::Chombo(1), Entry::Pao { holder: 0, feeder: 1, yaku: 28 }] {
        let before = position;
        assert_eq!(book(&mut position, &entry), 9);
        assert_eq!(position, before);
    }
}

#[test]
fn a_list_with_more_sticks_ends_higher() {
    let win = yakuman();
    // Hands with a riichi of seat 1 and a draw that keeps the deal and costs nothing, before those with yakuman; 30 sticks are all.
    for first in 0..30 {
        let mut position = Position::fresh();
        for _ in 0..first {
            assert_eq!((book(&mut position, &Entry::Riichi(1)), book(&mut position, &Entry::Draw(15))), (0, 0));
        }
        assert_eq!(book(&mut position, &Entry::Riichi(1)), 0);
        (first..200).for_each(|_| assert_eq!(book(&mut position, &win), 0));
        assert_eq!((position.hands, position.counter, position.sticks), (200, 200, 0));
        assert_eq!(position.scores[1], LOWEST + most(first) - 1000 * first);
        assert!(first == 0 || position.scores[1] > LOWEST);
    }
    // None at all.
    let mut position = Position::fresh();
    (0..200).for_each(|_| assert_eq!(book(&mut position, &win), 0));
    assert_eq!(position.scores[1], LOWEST + 1000);
}

#[test]
fn no_payment_is_over_48_000_and_no_multiple_ron_takes_over_112_000() {
    let amounts = (0..=255).flat_map(|h| (0..=255).map(move |fu| basic(h, fu))).chain([YAKUMAN]);
    let (mut lowest, mut child) = (0, 0);
    for a in amounts {
        for dealer in 0..4 {
            lowest = lowest.min(*ron(a, 0, 1, dealer).iter().min().expect("four"));
            lowest = lowest.min(*tsumo(a, 0, dealer).iter().min().expect("four"));
        }
        child = child.min(*ron(a, 0, 1, 2).iter().min().expect("four"));
    }
    // One of three winners deals.
    assert_eq!((lowest, child, lowest + 2 * child), (-48_000, -32_000, -112_000));
}

#[test]
fn no_feeder_pays_more_than_the_payer_of_three_yakuman() {
    let tsumo = |seat: &str| Entry::Win(pack(&parse(&["234mPPPFFFCC99p+C", seat, "tsumo"]).expect("a hand")));
    let wins = [three("234mPPPFFFCC99p+C"), tsumo("seat=0"), tsumo("seat=1"), tsumo("seat=2"), tsumo("seat=3")];
    let start = Position { counter: 7, hands: 7, ..Position::fresh() };
    let mut most = [0; 5];
    // Each of the four holders has no feeder, or one so many seats further.
    for ways in 0..256u32 {
        let steps = [0, 1, 2, 3].map(|holder: u8| (ways >> (2 * holder) & 3) as u8);
        let mut named = start;
        for holder in 0..4 {
            if steps[holder as usize] > 0 {
                let feeder = (holder + steps[holder as usize]) % 4;
                assert_eq!(book(&mut named, &Entry::Pao { holder, feeder, yaku: 28 }), 0);
            }
        }
        for (win, most) in wins.iter().zip(&mut most) {
            let mut position = named;
            assert_eq!(book(&mut position, win), 0);
            *most = position.scores.iter().map(|score| 30_000 - score).chain([*most]).max().expect("four");
        }
    }
    assert_eq!(most, [112_000 + 2100, 48_000 + 2100, 32_000 + 2100, 32_000 + 2100, 32_000 + 2100]);
}

#[test]
fn no_list_undercuts_the_lowest_score() {
    let mut rng = Rng::new(31);
    let win = yakuman();
    for _ in 0..150 {
        let mut game = Game::fresh();
        for _ in 0..500 {
            let entry = match rng.below(10) {
                0..=3 => win.clone(),
                4..=6 => Entry::Riichi(1),
                _ => chance::entry(&mut rng, &game, true),
            };
            game.book(&entry);
            let position = game.now();
            assert!(position.counter <= position.hands as u32);
            for score in position.scores {
                assert!(score >= lowest(position.hands as i32) && score >= LOWEST && score > FLOOR);
            }
        }
    }
}
