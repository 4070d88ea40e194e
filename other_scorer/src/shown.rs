//! Every reading of a record's tiles with what it is worth, with a yaku or not, in document 01's order.

use crate::codec::read;
use crate::reading::{readings, Reading};
use crate::score::{best, worth, Value};
use crate::win::Win;

/// A reading, what it is worth, and whether it is the one that Score reports.
#[derive(Clone, Debug, PartialEq, Eq)]
pub struct Shown {
    pub reading: Reading,
    pub value: Value,
    pub reported: bool,
}

/// All readings of a record's tiles for a dealer and round wind; or refusal 8, then Read's 1 to 5 (01, Readings; Score).
pub fn all(record: &[u8], dealer: u8, wind: u8) -> Result<Vec<Shown>, u8> {
    if dealer > 3 || wind > 1 {
        return Err(8);
    }
    let hand = read(record)?;
    let win = Win::new(&hand, dealer, wind);
    let list = readings(hand.concealed(), hand.winning);
    let list: Vec<(Reading, Value)> = list.into_iter().map(|reading| (reading.clone(), worth(&win, &reading))).collect();
    let with_yaku: Vec<_> = list.iter().map(|(reading, value)| (reading.clone(), Some(*value).filter(|value| value.yaku != 0))).collect();
    let best = best(&with_yaku);
    Ok((0..).zip(list).map(|(at, (reading, value))| Shown { reading, value, reported: best == Some(at) }).collect())
}

/// The n-th of them, from 1; refusal 8 where there is none of that number.
pub fn nth(all: &Result<Vec<Shown>, u8>, n: u32) -> Result<&Shown, u8> {
    let all = all.as_ref().map_err(|&refusal| refusal)?;
    (n as usize).checked_sub(1).and_then(|at| all.get(at)).ok_or(8)
}
