//! The records of a multiple ron (02, S-6).

use crate::codec::{length, meld_count, read};
use crate::record::{Hand, RON};

/// Each record but the last as long as its m says, the last all that is left; one that does not fit has what there is, which Read
/// refuses (02, S-6).
pub fn split(number: u8, records: &[u8]) -> Vec<&[u8]> {
    let (mut list, mut rest) = (Vec::new(), records);
    for _ in 1..number {
        let m = if rest.len() < 4 { 5 } else { meld_count(rest) };
        let own = if m > 4 { rest.len() } else { length(m).min(rest.len()) };
        list.push(&rest[..own]);
        rest = &rest[own..];
    }
    list.push(rest);
    list
}

/// The hands of a multiple ron; the error is Read's refusal of the first unreadable record (02, S-6).
pub fn hands(number: u8, records: &[u8]) -> Result<Vec<Hand>, u8> {
    split(number, records).into_iter().map(read).collect()
}

/// The ways in which hands make no multiple ron in words, by the place that `faults` gives (02, S-6).
pub const FAULTS: [&str; 6] = [
    "a record isn't ron",
    "two have one winner",
    "they differ in discarder",
    "they differ in winning tile",
    "they differ in indicator",
    "they differ in situation",
];

/// Each way in which hands make no multiple ron (02, S-6).
pub fn faults(hands: &[Hand]) -> [bool; 6] {
    let pair = |test: fn(&Hand, &Hand) -> bool| (1..hands.len()).any(|at| hands[..at].iter().any(|before| test(before, &hands[at])));
    [
        hands.iter().any(|hand| hand.how != RON),
        pair(|one, two| one.winner == two.winner),
        pair(|one, two| one.discarder != two.discarder),
        pair(|one, two| one.winning != two.winning),
        pair(|one, two| one.indicator != two.indicator),
        pair(|one, two| one.situation != two.situation),
    ]
}

/// The first winner in turn order after the discarder (02, S-6).
pub fn first_winner(hands: &[Hand]) -> u8 {
    let steps = |hand: &Hand| (hand.winner + 4 - hand.discarder) % 4;
    let first = hands.iter().min_by_key(|hand| steps(hand));
    first.expect("a multiple ron has a winner").winner
}
