//! What all readings of one win share.

use crate::record::{Hand, RON};
use crate::tiles::{dora_after, is_dragon, EAST};

pub struct Win {
    pub hand: Hand,
    pub dealer: u8,
    pub round: u8,
    pub own: u8,
    pub closed: bool,
    pub ron: bool,
    pub held: Vec<u8>,
}

impl Win {
    /// Winds of the win: the round's, and the seat's counted from the dealer (01, Yaku).
    pub fn new(hand: &Hand, dealer: u8, wind: u8) -> Win {
        Win {
            hand: *hand,
            dealer,
            round: EAST + wind,
            own: EAST + (hand.winner + 4 - dealer) % 4,
            closed: hand.is_closed(),
            ron: hand.how == RON,
            held: hand.held(),
        }
    }

    /// How often a kind is a value tile: dragon 1, round wind 1, own wind 1 (01, Yaku, 3).
    pub fn worth(&self, kind: u8) -> u8 {
        is_dragon(kind) as u8 + (kind == self.round) as u8 + (kind == self.own) as u8
    }

    /// The number of dora held, kans whole (01, Fu and points).
    pub fn dora(&self) -> u8 {
        let dora = dora_after(self.hand.indicator);
        self.held.iter().filter(|&&tile| tile == dora).count() as u8
    }
}
