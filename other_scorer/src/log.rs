//! Walking a log, and the lines of program tally (01, Log; 02, S-6, S-8 and S-10).

use crate::codec::{length, meld_count};
use crate::entry::Entry;
use crate::game::Game;
use crate::pao::{DRAGONS, WINDS};

pub const RIICHI: u8 = 0;
pub const WIN: u8 = 1;
pub const DRAW: u8 = 2;
pub const CHOMBO: u8 = 3;
pub const MULTI_RON: u8 = 4;
pub const PAO: u8 = 5;
pub const CORRECTION: u8 = 6;

/// Program tally reads no bytes past this (01, Log).
pub const LONGEST: usize = 65_536;

/// What stands at an offset of a log; a bad entry carries its refusal, 14 (01, Next entry).
#[derive(Clone, Copy, Debug, PartialEq, Eq)]
pub enum Next<'a> {
    Entry { kind: u8, argument: u8, part: &'a [u8] },
    End,
    Bad(u8),
}

/// The ways to meet refusal 14 in words, by the number that `size` gives (01, Next entry; 02, S-6, S-8 and S-10).
pub const ENTRY_FAULTS: [&str; 9] = [
    "kind over 6",
    "win argument not 0",
    "m over 4",
    "bytes missing",
    "pao argument not 0",
    "a zero bit of a pao set",
    "no records or over three",
    "correction argument not 0",
    "a correction of no win, draw, chombo or multiple ron",
];

/// The length of the record that a stretch starts with; the error is how it is bad (01, Next entry).
fn record_size(rest: &[u8]) -> Result<usize, usize> {
    match meld_count(rest.get(..4).ok_or(3usize)?) {
        5.. => Err(2),
        m => Ok(length(m)),
    }
}

/// The length of the entry that a non-empty stretch starts with; the error is how it is bad, of a correction's entry too (01, Next
/// entry; 02, S-6, S-8 and S-10).
pub fn size(rest: &[u8]) -> Result<usize, usize> {
    let size = match (rest[0] >> 4, rest[0] & 15) {
        (RIICHI | DRAW | CHOMBO, _) => 1,
        (WIN, 0) => 1 + record_size(&rest[1..])?,
        (WIN, _) => return Err(1),
        (MULTI_RON, 1..=3) => {
            let mut at = 1;
            for _ in 0..rest[0] & 15 {
                at += record_size(rest.get(at..).unwrap_or_default())?;
            }
            at
        }
        (MULTI_RON, _) => return Err(6),
        (PAO, 0) => match rest.get(1).ok_or(3usize)? % 8 {
            0 => 2,
            _ => return Err(5),
        },
        (PAO, _) => return Err(4),
        (CORRECTION, 0) => match rest.get(1).ok_or(3usize)? >> 4 {
            WIN | DRAW | CHOMBO | MULTI_RON => 1 + size(&rest[1..])?,
            _ => return Err(8),
        },
        (CORRECTION, _) => return Err(7),
        _ => return Err(0),
    };
    if size <= rest.len() {
        Ok(size)
    } else {
        Err(3)
    }
}

/// The entry at an offset, that very part of the log, from its header on (01, Next entry).
pub fn next(log: &[u8], offset: usize) -> Next<'_> {
    let rest = log.get(offset..).unwrap_or_default();
    if rest.is_empty() {
        return Next::End;
    }
    match size(rest) {
        Ok(size) => Next::Entry { kind: rest[0] >> 4, argument: rest[0] & 15, part: &rest[..size] },
        Err(_) => Next::Bad(14),
    }
}

/// The entry of a part; a win's record, those of a multiple ron, a pao's byte or the entry that a correction carries follow the header
/// (01, Log; 02, S-6, S-8 and S-10).
pub fn entry(kind: u8, argument: u8, part: &[u8]) -> Entry {
    match kind {
        RIICHI => Entry::Riichi(argument),
        WIN => Entry::Win(part[1..].to_vec()),
        DRAW => Entry::Draw(argument),
        MULTI_RON => Entry::MultiRon { number: argument, records: part[1..].to_vec() },
        PAO => {
            let (seats, yaku) = (part[1] / 16, if part[1] % 16 / 8 == 0 { DRAGONS } else { WINDS });
            Entry::Pao { holder: seats / 4, feeder: seats % 4, yaku }
        }
        CORRECTION => entry(part[1] >> 4, part[1] & 15, &part[1..]).as_correction(),
        _ => Entry::Chombo(argument),
    }
}

/// All entries of a log up to its end or a bad one, and that one's refusal, 0 if none (01, Log).
pub fn entries(log: &[u8]) -> (Vec<Entry>, u8) {
    let mut list = Vec::new();
    let mut offset = 0;
    loop {
        match next(log, offset) {
            Next::Entry { kind, argument, part } => {
                list.push(entry(kind, argument, part));
                offset += part.len();
            }
            Next::End => return (list, 0),
            Next::Bad(number) => return (list, number),
        }
    }
}

/// The letter of an entry (01, Log; 02, S-6, S-8 and S-10).
pub fn letter(entry: &Entry) -> char {
    match entry {
        Entry::Riichi(_) => 'R',
        Entry::Win(_) => 'W',
        Entry::Draw(_) => 'D',
        Entry::Chombo(_) => 'C',
        Entry::MultiRon { .. } => 'M',
        Entry::Pao { .. } => 'P',
        Entry::Correction(_) => 'X',
    }
}

/// What program tally prints for a log on standard input (01, Log).
pub fn tally_lines(log: &[u8]) -> String {
    let (list, _) = entries(&log[..log.len().min(LONGEST)]);
    let mut game = Game::fresh();
    let mut lines = String::new();
    for (at, entry) in list.iter().enumerate() {
        let refusal = game.book(entry);
        let [a, b, c, d] = game.now().scores;
        let (number, letter, sticks) = (at + 1, letter(entry), game.now().sticks);
        lines += &format!("{number} {letter} {refusal} {a} {b} {c} {d} {sticks}\n");
    }
    lines
}
