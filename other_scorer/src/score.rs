//! Score: every reading valued, the best reported (01, Score).

use crate::codec::read;
use crate::reading::{readings, Reading};
use crate::record::Hand;
use crate::shape::Shape;
use crate::win::Win;
use crate::{fu, points, yaku, yakuman};

#[derive(Clone, Copy, Debug, Default, PartialEq, Eq)]
pub struct Scored {
    pub refusal: u8,
    pub h: u8,
    pub fu: u8,
    /// The items of the reported reading's fu (02, S-3).
    pub items: fu::Items,
    pub yaku: u64,
    /// How many readings were tried (02, S-4).
    pub tried: u32,
    pub changes: [i32; 4],
}

/// What one reading is worth.
#[derive(Clone, Copy, Debug, PartialEq, Eq)]
pub struct Value {
    /// The amount A, and what the winner gets.
    pub basic: u32,
    pub gain: i32,
    pub h: u8,
    /// How many of h are dora.
    pub dora: u8,
    pub fu: u8,
    pub yaku: u64,
    pub changes: [i32; 4],
    /// The han of each yaku at its number, 0 for a yakuman, and the items of fu.
    pub han: [u8; 37],
    pub items: fu::Items,
}

/// A reading and its value; no value where it has no yaku.
pub type Valued = (Reading, Option<Value>);

/// The four changes for an amount A (01, Fu and points).
fn changes(win: &Win, a: u32) -> [i32; 4] {
    let hand = &win.hand;
    if win.ron {
        points::ron(a, hand.winner, hand.discarder, win.dealer)
    } else {
        points::tsumo(a, hand.winner, win.dealer)
    }
}

/// A value from the yaku with their han, the items of fu, the dora and A; h is the han with the dora (01, Fu and points).
fn value(win: &Win, list: &[yaku::Yaku], items: fu::Items, dora: u8, a: u32) -> Value {
    let changes = changes(win, a);
    let mut han = [0; 37];
    list.iter().for_each(|&(n, of)| han[n as usize] = of);
    let yaku = list.iter().fold(0, |set, (n, _)| set | 1 << n);
    let h = han.iter().sum::<u8>() + dora;
    Value { basic: a, gain: changes[win.hand.winner as usize], h, dora, fu: items.total(), yaku, changes, han, items }
}

/// The yakuman, the yaku with their han, and the items of fu of one reading (01, Yaku; Fu and points).
fn parts(win: &Win, reading: &Reading) -> (Vec<u8>, Vec<yaku::Yaku>, fu::Items) {
    let mut yakuman = yakuman::of_winning(win);
    let mut yaku = yaku::of_winning(win);
    let fu = match reading {
        Reading::Regular { pair, groups, place } => {
            let shape = Shape::new(win, *pair, groups, *place);
            yakuman.extend(yakuman::of_kinds(win));
            yakuman.extend(yakuman::of_shape(win, &shape));
            yaku.extend(yaku::of_kinds(win));
            yaku.extend(yaku::of_shape(win, &shape));
            fu::regular(win, &shape)
        }
        Reading::SevenPairs => {
            yakuman.extend(yakuman::of_kinds(win));
            yaku.extend(yaku::of_kinds(win));
            yaku.push((12, 2));
            fu::SEVEN_PAIRS
        }
        Reading::ThirteenOrphans => {
            yakuman.push(36);
            fu::Items::default()
        }
    };
    (yakuman, yaku, fu)
}

/// What one reading comes to: with a yakuman only yakuman count, and without a yaku nobody pays (01, Yaku; Fu and points).
pub fn worth(win: &Win, reading: &Reading) -> Value {
    let (yakuman, yaku, items) = parts(win, reading);
    if !yakuman.is_empty() {
        let list: Vec<yaku::Yaku> = yakuman.into_iter().map(|n| (n, 0)).collect();
        return value(win, &list, fu::Items::default(), 0, points::YAKUMAN);
    }
    let dora = win.dora();
    let h = yaku.iter().map(|(_, han)| han).sum::<u8>() + dora;
    let a = if yaku.is_empty() { 0 } else { points::basic(h, items.total()) };
    value(win, &yaku, items, dora, a)
}

/// The value of one reading with a yaku (01, Score).
pub fn appraise(win: &Win, reading: &Reading) -> Option<Value> {
    Some(worth(win, reading)).filter(|value| value.yaku != 0)
}

/// All readings of a sound hand in order, each with its value (01, Readings).
pub fn valued(hand: &Hand, dealer: u8, wind: u8) -> Vec<Valued> {
    let win = Win::new(hand, dealer, wind);
    let all = readings(hand.concealed(), hand.winning);
    all.into_iter()
        .map(|reading| {
            let value = appraise(&win, &reading);
            (reading, value)
        })
        .collect()
}

/// The place in the list of the first reading with the highest gain, then h, then fu (01, Readings).
pub fn best(all: &[Valued]) -> Option<usize> {
    let rank = |value: &Value| (value.gain, value.h, value.fu);
    let top = all.iter().filter_map(|(_, value)| value.as_ref().map(rank)).max()?;
    all.iter().position(|(_, value)| value.as_ref().map(rank) == Some(top))
}

/// Whether a yakuman is among the yaku, 26 to 36 (01, Yaku).
pub fn has_yakuman(yaku: u64) -> bool {
    yaku >> 26 != 0
}

/// How many of the readings in order are tried: up to the first with a yakuman, it included, or all (02, S-4).
pub fn tried(all: &[Valued]) -> usize {
    let first = all.iter().position(|(_, value)| value.is_some_and(|value| has_yakuman(value.yaku)));
    first.map_or(all.len(), |at| at + 1)
}

/// A refused score: its number, all else zero (01, Score).
fn refused(refusal: u8) -> Scored {
    Scored { refusal, ..Scored::default() }
}

/// Scores a record for a dealer and round wind (01, Score).
pub fn score(record: &[u8], dealer: u8, wind: u8) -> Scored {
    if dealer > 3 || wind > 1 {
        return refused(8);
    }
    let hand = match read(record) {
        Ok(hand) => hand,
        Err(number) => return refused(number),
    };
    let all = valued(&hand, dealer, wind);
    if all.is_empty() {
        return refused(6);
    }
    let Some(value) = best(&all).and_then(|at| all[at].1) else { return refused(7) };
    let Value { h, fu, items, yaku, changes, .. } = value;
    Scored { refusal: 0, h, fu, items, yaku, tried: tried(&all) as u32, changes }
}
