//! The fields of a hand (01, Tiles and the hand record).

pub const TSUMO: u8 = 0;
pub const RON: u8 = 1;

pub const ORDINARY: u8 = 0;
pub const RINSHAN: u8 = 1;
pub const CHANKAN: u8 = 2;
pub const LAST_TILE: u8 = 3;
pub const FIRST_TURN: u8 = 4;

pub const CHI: u8 = 0;
pub const PON: u8 = 1;
pub const OPEN_KAN: u8 = 2;
pub const CLOSED_KAN: u8 = 3;

#[derive(Clone, Copy, Debug, Default, PartialEq, Eq)]
pub struct Meld {
    pub kind: u8,
    pub tile: u8,
}

#[derive(Clone, Copy, Debug, Default, PartialEq, Eq)]
pub struct Hand {
    pub how: u8,
    pub winner: u8,
    pub discarder: u8,
    pub riichi: u8,
    pub situation: u8,
    pub indicator: u8,
    pub winning: u8,
    pub m: u8,
    pub melds: [Meld; 4],
    pub concealed: [u8; 13],
}

impl Meld {
    /// The tiles of a meld, four for a kan (01, Tiles and the hand record).
    pub fn tiles(&self) -> Vec<u8> {
        let t = self.tile;
        match self.kind {
            CHI => vec![t, t + 1, t + 2],
            PON => vec![t; 3],
            _ => vec![t; 4],
        }
    }

    /// Open and closed kans are kans (01, Tiles and the hand record).
    pub fn is_kan(&self) -> bool {
        self.kind == OPEN_KAN || self.kind == CLOSED_KAN
    }
}

impl Hand {
    /// The melds in use (01, Tiles and the hand record).
    pub fn melds(&self) -> &[Meld] {
        &self.melds[..self.m as usize]
    }

    /// The concealed tiles in use, the winning tile left out (01, Tiles and the hand record).
    pub fn concealed(&self) -> &[u8] {
        &self.concealed[..13 - 3 * self.m as usize]
    }

    /// Closed when all melds are closed kans (01, Tiles and the hand record).
    pub fn is_closed(&self) -> bool {
        self.melds().iter().all(|meld| meld.kind == CLOSED_KAN)
    }

    /// Every tile the winner holds: concealed, winning tile, melds with kans whole (01, Fu and points).
    pub fn held(&self) -> Vec<u8> {
        let mut tiles = self.concealed().to_vec();
        tiles.push(self.winning);
        tiles.extend(self.melds().iter().flat_map(|meld| meld.tiles()));
        tiles
    }

    /// The tiles refusal 4 counts: those held and the indicator (01, Read).
    pub fn seen(&self) -> Vec<u8> {
        let mut tiles = self.held();
        tiles.push(self.indicator);
        tiles
    }
}
