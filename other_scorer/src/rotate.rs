//! A hand keyed from another side of the table, or with its suits renamed (02, S-12).

use crate::record::{Hand, RON};
use crate::tiles::{suit, GREEN};

/// The suits that man, pin and sou become (0 man, 1 pin, 2 sou).
pub type Suits = [u8; 3];

/// The six renamings of the three suits, the first of which changes nothing.
pub const RENAMINGS: [Suits; 6] = [[0, 1, 2], [0, 2, 1], [1, 0, 2], [1, 2, 0], [2, 0, 1], [2, 1, 0]];

/// A seat 0 to 3 moved on by so many seats.
pub fn moved(seat: u8, by: u8) -> u8 {
    (seat + by % 4) % 4
}

/// The changes of four seats moved on by so many seats.
pub fn moved_changes(changes: [i32; 4], by: u8) -> [i32; 4] {
    let mut after = [0; 4];
    for (seat, change) in (0..4).zip(changes) {
        after[moved(seat, by) as usize] = change;
    }
    after
}

/// Winner and discarder moved on by the same number of seats; a tsumo record's discarder stays 0.
pub fn rotated(hand: &Hand, by: u8) -> Hand {
    let discarder = if hand.how == RON { moved(hand.discarder, by) } else { hand.discarder };
    Hand { winner: moved(hand.winner, by), discarder, ..*hand }
}

/// A tile of the renamed suit, with its rank; an honour stays.
fn renamed_tile(tile: u8, suits: Suits) -> u8 {
    match suit(tile) {
        Some(suit) => 9 * suits[suit as usize] + tile % 9,
        None => tile,
    }
}

/// The suits of all tiles renamed, indicator included, and concealed tiles put back in order.
pub fn renamed(hand: &Hand, suits: Suits) -> Hand {
    let mut after = *hand;
    after.indicator = renamed_tile(hand.indicator, suits);
    after.winning = renamed_tile(hand.winning, suits);
    for meld in &mut after.melds[..hand.m as usize] {
        meld.tile = renamed_tile(meld.tile, suits);
    }
    let concealed = &mut after.concealed[..hand.concealed().len()];
    concealed.iter_mut().for_each(|tile| *tile = renamed_tile(*tile, suits));
    concealed.sort();
    after
}

/// Whether the hand is all green, yaku 34 (01, Yaku).
pub fn is_green(hand: &Hand) -> bool {
    hand.held().iter().all(|tile| GREEN.contains(tile))
}
