//! Hand notation, as in document 01's table: "234567m345p67s22s+8s seat=1 ron=3".

pub mod hex;
pub mod parse;
pub mod print;
pub mod tiles;
pub mod typed;
pub mod unfinished;

pub use parse::{meld, meld_kind, parse, seat, Fault, WORDS};
pub use print::{meld as meld_word, print};
pub use tiles::{doubtful, text, tiles};
pub use typed::{no_tiles, one, Typed};

use crate::record::{Hand, Meld};

/// A hand from all its concealed tiles, the winning tile among them, and its melds by kind and text.
pub fn hand(concealed: &str, winning: &str, melds: &[(u8, &str)]) -> Hand {
    let winning = tiles(winning).expect("a tile")[0];
    let mut rest = tiles(&concealed.replace(' ', "")).expect("tiles");
    let at = rest.iter().position(|&tile| tile == winning).expect("the winning tile");
    rest.remove(at);
    rest.sort();
    let mut hand = Hand { winning, m: melds.len() as u8, ..Hand::default() };
    hand.concealed[..rest.len()].copy_from_slice(&rest);
    for (place, (kind, text)) in hand.melds.iter_mut().zip(melds) {
        *place = Meld { kind: *kind, tile: tiles(text).expect("a tile")[0] };
    }
    hand
}
