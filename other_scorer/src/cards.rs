//! Practice cards (02, S-9): each is put together from a pair and groups, and all of them are sorted.

use std::collections::BTreeSet;

use crate::reading::Group;
use crate::tiles::starts_run;

/// The refusal of a suit over 2, another size, or a buffer shorter than the whole list.
pub const REFUSAL: u8 = 19;

/// The tiles of every run and every triplet of a suit, 0 man, 1 pin, 2 sou.
fn groups(suit: u8) -> Vec<[u8; 3]> {
    let kinds = 9 * suit..9 * suit + 9;
    let runs = kinds.clone().filter(|&low| starts_run(low)).map(Group::Run);
    runs.chain(kinds.map(Group::Triplet)).map(Group::tiles).collect()
}

/// A card and a group more, its tiles ascending; none with a fifth tile of a kind.
fn with(card: &[u8], group: &[u8; 3]) -> Option<Vec<u8>> {
    let mut tiles = [card, group].concat();
    tiles.sort();
    tiles.windows(5).all(|five| five[0] < five[4]).then_some(tiles)
}

/// Every card of a suit and a size in ascending order; none for a suit or size that there is not.
pub fn cards(suit: u8, size: u8) -> Option<Vec<Vec<u8>>> {
    if suit > 2 || ![2, 5, 8].contains(&size) {
        return None;
    }
    let groups = groups(suit);
    let mut cards: BTreeSet<Vec<u8>> = (9 * suit..9 * suit + 9).map(|kind| vec![kind; 2]).collect();
    for _ in 0..size / 3 {
        cards = cards.iter().flat_map(|card| groups.iter().filter_map(|group| with(card, group))).collect();
    }
    Some(cards.into_iter().collect())
}

/// Writes the cards at the start of a buffer, a byte a tile; how many they are, or the refusal.
pub fn write(suit: u8, size: u8, buffer: &mut [u8]) -> Result<u16, u8> {
    let cards = cards(suit, size).ok_or(REFUSAL)?;
    let bytes = cards.concat();
    buffer.get_mut(..bytes.len()).ok_or(REFUSAL)?.copy_from_slice(&bytes);
    Ok(cards.len() as u16)
}
