//! Refusals 2 to 5 for a hand's fields (01, Read).

use crate::record::{Hand, CHANKAN, CHI, FIRST_TURN, RINSHAN, RON, TSUMO};
use crate::tiles::starts_run;

/// The ways to meet refusal 2 in words: those of `field_faults`, then a padding bit (01, Read).
pub const FIELD_FAULTS: [&str; 10] = [
    "indicator over 33",
    "winning tile over 33",
    "tile of a meld over 33",
    "concealed tile over 33",
    "riichi 3",
    "situation over 4",
    "a chi with no run from that tile",
    "tsumo with discarder not 0",
    "ron with discarder equal to winner",
    "a padding bit set",
];

/// The ways to meet refusal 5 in words, those of `situation_faults` (01, Read).
pub const SITUATION_FAULTS: [&str; 10] = [
    "riichi without a closed hand",
    "double riichi with a meld",
    "rinshan on ron",
    "rinshan with riichi",
    "rinshan without a kan",
    "chankan on tsumo",
    "chankan with the winning tile's kind more than once",
    "first turn with ron",
    "first turn with a meld",
    "first turn with riichi",
];

/// Each way to meet refusal 2 that Read and Write share (01, Read).
pub fn field_faults(hand: &Hand) -> [bool; 9] {
    let melds = hand.melds();
    [
        hand.indicator > 33,
        hand.winning > 33,
        melds.iter().any(|meld| meld.tile > 33),
        hand.concealed().iter().any(|&tile| tile > 33),
        hand.riichi > 2,
        hand.situation > 4,
        melds.iter().any(|meld| meld.kind == CHI && !starts_run(meld.tile)),
        hand.how == TSUMO && hand.discarder != 0,
        hand.how == RON && hand.discarder == hand.winner,
    ]
}

/// Each way to meet refusal 5 (01, Read).
pub fn situation_faults(hand: &Hand) -> [bool; 10] {
    let ron = hand.how == RON;
    let riichi = hand.riichi != 0;
    let kan = hand.melds().iter().any(|meld| meld.is_kan());
    let seen = hand.seen().iter().filter(|&&tile| tile == hand.winning).count();
    let rinshan = hand.situation == RINSHAN;
    let chankan = hand.situation == CHANKAN;
    let first = hand.situation == FIRST_TURN;
    [
        riichi && !hand.is_closed(),
        hand.riichi == 2 && hand.m > 0,
        rinshan && ron,
        rinshan && riichi,
        rinshan && !kan,
        chankan && !ron,
        chankan && seen > 1,
        first && ron,
        first && hand.m > 0,
        first && riichi,
    ]
}

/// Concealed tiles that descend somewhere, refusal 3 (01, Read).
pub fn is_descending(hand: &Hand) -> bool {
    hand.concealed().windows(2).any(|two| two[0] > two[1])
}

/// Over four of a kind among the tiles seen, refusal 4 (01, Read).
pub fn five_of_a_kind(hand: &Hand) -> bool {
    let seen = hand.seen();
    seen.iter().any(|a| seen.iter().filter(|&b| a == b).count() > 4)
}

/// Refusals 2 to 5 for fields that are in their bits, 0 for a sound hand (01, Read).
pub fn refusal(hand: &Hand) -> u8 {
    if field_faults(hand).contains(&true) {
        2
    } else if is_descending(hand) {
        3
    } else if five_of_a_kind(hand) {
        4
    } else if situation_faults(hand).contains(&true) {
        5
    } else {
        0
    }
}
