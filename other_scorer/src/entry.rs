//! What a list or a log has one after the other: bookings and corrections (01, The game; Log; 02, S-6, S-8 and S-10).

use crate::pao::WINDS;

/// One of the six bookings with its arguments, or a correction.
#[derive(Clone, Debug, PartialEq, Eq)]
pub enum Entry {
    Riichi(u8),
    Win(Vec<u8>),
    Draw(u8),
    Chombo(u8),
    /// A multiple ron: so many rons on one tile, their records end to end (02, S-6).
    MultiRon {
        number: u8,
        records: Vec<u8>,
    },
    /// The feeder of a holder's yaku (02, S-8).
    Pao {
        holder: u8,
        feeder: u8,
        yaku: u8,
    },
    /// A correction: the result that it carries, a win, draw, chombo or multiple ron, supersedes the last finished booking (02, S-10).
    Correction(Box<Entry>),
}

impl Entry {
    /// A correction that carries this result (02, S-10).
    pub fn as_correction(self) -> Entry {
        Entry::Correction(Box::new(self))
    }

    /// Whether it finishes a hand, if accepted (01, The game; 02, S-6, S-8 and S-10).
    pub fn finishes(&self) -> bool {
        !matches!(self, Entry::Riichi(_) | Entry::Pao { .. })
    }

    /// Its bytes in a log: header, and the record of a win, those of a multiple ron, the byte of a pao, or the entry that a correction
    /// carries; an argument that does not fit has none (01, Log; 02, S-6, S-8 and S-10).
    pub fn bytes(&self) -> Vec<u8> {
        match self {
            Entry::Riichi(seat) => vec![seat & 15],
            Entry::Win(record) => [&[0x10], record.as_slice()].concat(),
            Entry::Draw(bits) => vec![0x20 | bits & 15],
            Entry::Chombo(seat) => vec![0x30 | seat & 15],
            Entry::MultiRon { number, records } => [&[0x40 | number & 15], records.as_slice()].concat(),
            Entry::Pao { holder, feeder, yaku } => vec![0x50, holder << 6 | (feeder & 3) << 4 | ((*yaku == WINDS) as u8) << 3],
            Entry::Correction(new) => [&[0x60], new.bytes().as_slice()].concat(),
        }
    }
}
