//! A position of a game, and the six bookings in it (01, The game; 02, S-5 to S-8 and S-11).

use crate::codec::{pack, read};
use crate::entry::Entry;
use crate::multi_ron;
use crate::pao::{self, DRAGONS, WINDS};
use crate::record::{Hand, RON};
use crate::score::{score, Scored};

/// No score of an open game is under this (02, S-6).
pub const FLOOR: i32 = -28_540_000;

/// The game is over at so many finished hands (01, The game).
pub const LAST_HAND: u8 = 200;

const TOTAL: i64 = 120_000;
const STICK: i64 = 1000;

#[derive(Clone, Copy, Debug, PartialEq, Eq)]
pub struct Position {
    pub scores: [i32; 4],
    pub sticks: u32,
    pub declared: [bool; 4],
    pub dealer: u8,
    pub wind: u8,
    pub hands: u8,
    pub over: bool,
    pub counter: u32,
    /// 1 + the feeder of a holder, 0 for none: place 0 + holder for the dragons, 4 + holder for the winds (02, S-8).
    pub feeders: [u8; 8],
}

impl Position {
    /// The position of a fresh game (01, The game).
    pub fn fresh() -> Position {
        let (sticks, declared) = (0, [false; 4]);
        Position { scores: [30_000; 4], sticks, declared, dealer: 0, wind: 0, hands: 0, over: false, counter: 0, feeders: [0; 8] }
    }

    /// The number of declared seats (01, The game).
    fn declarations(&self) -> u32 {
        self.declared.iter().filter(|&&seat| seat).count() as u32
    }

    /// Scores plus 1,000 times sticks (01, The game).
    pub fn total(&self) -> i64 {
        self.scores.iter().map(|&score| score as i64).sum::<i64>() + STICK * self.sticks as i64
    }

    /// The seat that is named as the feeder of a holder's yaku, none if there is none (02, S-8).
    pub fn feeder(&self, holder: u8, yaku: u8) -> Option<u8> {
        self.feeders[place(holder, yaku)].checked_sub(1)
    }

    /// Each way to be out of form (01, The game, refusal 9; 02, S-5 and S-8).
    pub fn form_faults(&self) -> [bool; 8] {
        [
            self.dealer > 3,
            self.wind > 1,
            self.hands > LAST_HAND,
            self.sticks < self.declarations(),
            self.scores.iter().any(|&score| score < FLOOR),
            self.total() != TOTAL,
            self.counter > self.hands as u32,
            (0..8).any(|place| self.feeder(place % 4, DRAGONS + place / 4).is_some_and(|seat| seat > 3 || seat == place % 4)),
        ]
    }

    /// Not out of form, over or not (01, The game, refusal 9).
    pub fn is_in_form(&self) -> bool {
        !self.form_faults().contains(&true)
    }

    /// Neither over nor out of form (01, The game, refusal 9).
    pub fn is_open(&self) -> bool {
        !self.over && self.hands != LAST_HAND && self.is_in_form()
    }

    /// Whether a seat has the points of a stick; 1,000 exactly is enough (02, S-11).
    pub fn affords_riichi(&self, seat: u8) -> bool {
        self.scores[seat as usize] as i64 >= STICK
    }

    /// Gives a seat points, or takes them; in an open game sums stay under 115 million.
    fn pay(&mut self, seat: usize, points: i64) {
        let score = self.scores[seat] as i64 + points;
        self.scores[seat] = i32::try_from(score).expect("points of an open game");
    }

    /// Passes the deal; after South's seat 3 dealer and wind stay (01, The game).
    fn pass(&mut self) {
        match (self.dealer, self.wind) {
            (3, 0) => (self.dealer, self.wind) = (0, 1),
            (3, _) => self.over = true,
            _ => self.dealer += 1,
        }
    }

    /// The declared seats that a draw's bits say are not ready (02, S-7).
    pub fn unready(&self, bits: u8) -> Vec<usize> {
        (0..4).filter(|&seat| self.declared[seat] && !is_ready(bits, seat)).collect()
    }

    /// Has each of some seats pay 3,000 to every other, gives this hand's sticks back and finishes it (01, Chombo; 02, S-7).
    fn penalise(&mut self, seats: &[usize]) {
        for &seat in seats {
            for other in (0..4).filter(|&other| other != seat) {
                self.pay(seat, -3000);
                self.pay(other, 3000);
            }
        }
        for owner in (0..4).filter(|&owner| self.declared[owner]).collect::<Vec<_>>() {
            self.pay(owner, STICK);
            self.sticks -= 1;
        }
        self.finish(false);
    }

    /// Finishes a hand, clears declarations and lets feeders lapse (01, The game; 02, S-8).
    fn finish(&mut self, passes: bool) {
        self.declared = [false; 4];
        self.feeders = [0; 8];
        self.hands += 1;
        if passes {
            self.pass();
        }
        if self.hands == LAST_HAND {
            self.over = true;
        }
    }
}

/// Where the feeder of a holder's yaku stands (02, S-8).
fn place(holder: u8, yaku: u8) -> usize {
    holder as usize + if yaku == DRAGONS { 0 } else { 4 }
}

/// Whether a seat is ready: four bits, seat 0 first (01, Draw).
pub fn is_ready(bits: u8, seat: usize) -> bool {
    bits >> (3 - seat) & 1 == 1
}

/// Books riichi; gives the refusal, 0 if accepted (01, Riichi; 02, S-11).
pub fn riichi(position: &mut Position, seat: u8) -> u8 {
    if seat > 3 {
        return 8;
    }
    if !position.is_open() {
        return 9;
    }
    if position.declared[seat as usize] {
        return 10;
    }
    if !position.affords_riichi(seat) {
        return 21;
    }
    position.pay(seat as usize, -STICK);
    position.sticks += 1;
    position.declared[seat as usize] = true;
    0
}

/// The feeder of the yaku that a win is reported with, none if nobody is named: who pays by pao (02, S-8).
pub fn pao_feeder(position: &Position, hand: &Hand) -> Option<u8> {
    position.feeder(hand.winner, pao::yaku(hand, position.dealer, position.wind)?)
}

/// What each payer pays for a win: Score's payments, and for the counters 300 by ron or 100 each on tsumo; by pao the feeder all on
/// tsumo, and half by ron, the discarder half and the counters (01, Win; 02, S-5 and S-8).
fn payments(position: &Position, hand: &Hand, scored: &Scored, counter: u32) -> Vec<(u8, i64)> {
    let gain = scored.changes[hand.winner as usize] as i64;
    let counter = counter as i64;
    match (hand.how == RON, pao_feeder(position, hand)) {
        (true, None) => vec![(hand.discarder, gain + 300 * counter)],
        (true, Some(feeder)) => vec![(feeder, gain / 2), (hand.discarder, gain / 2 + 300 * counter)],
        (false, Some(feeder)) => vec![(feeder, gain + 300 * counter)],
        (false, None) => {
            let others = (0..4).filter(|&seat| seat != hand.winner);
            others.map(|seat| (seat, -scored.changes[seat as usize] as i64 + 100 * counter)).collect()
        }
    }
}

/// The score of a hand as a win in a position; the error is refusal 6, 7 or 11 (01, Win).
fn scored(position: &Position, hand: &Hand) -> Result<Scored, u8> {
    let scored = score(&pack(hand), position.dealer, position.wind);
    match scored.refusal {
        0 if (hand.riichi != 0) != position.declared[hand.winner as usize] => Err(11),
        0 => Ok(scored),
        number => Err(number),
    }
}

/// Books wins of hands on one tile, the sticks and counters for one of the winners; gives the first refusal, 0 if accepted (01, Win;
/// 02, S-5, S-6 and S-8).
fn wins(position: &mut Position, hands: &[Hand], first: u8) -> u8 {
    let mut paid = Vec::new();
    for hand in hands {
        let counter = if hand.winner == first { position.counter } else { 0 };
        match scored(position, hand) {
            Ok(scored) => {
                paid.extend(payments(position, hand, &scored, counter).into_iter().map(|(payer, points)| (payer, hand.winner, points)))
            }
            Err(number) => return number,
        }
    }
    for (payer, winner, points) in paid {
        position.pay(payer as usize, -points);
        position.pay(winner as usize, points);
    }
    position.pay(first as usize, STICK * position.sticks as i64);
    position.sticks = 0;
    let stays = hands.iter().any(|hand| hand.winner == position.dealer);
    position.counter = if stays { position.counter + 1 } else { 0 };
    position.finish(!stays);
    0
}

/// Books a win; gives the refusal, 0 if accepted (01, Win; 02, S-5 and S-8).
pub fn win(position: &mut Position, record: &[u8]) -> u8 {
    if !position.is_open() {
        return 9;
    }
    match read(record) {
        Ok(hand) => wins(position, &[hand], hand.winner),
        Err(number) => number,
    }
}

/// Books a multiple ron, all records or none; gives the refusal, 0 if accepted (02, S-6).
pub fn multi_ron(position: &mut Position, number: u8, records: &[u8]) -> u8 {
    if !position.is_open() {
        return 9;
    }
    if number == 0 || number > 3 {
        return 17;
    }
    match multi_ron::hands(number, records) {
        Err(number) => number,
        Ok(hands) if multi_ron::faults(&hands).contains(&true) => 17,
        Ok(hands) => wins(position, &hands, multi_ron::first_winner(&hands)),
    }
}

/// Books a draw, or a chombo of the declared seats that are not ready; gives the refusal, 0 if accepted (01, Draw; 02, S-7).
pub fn draw(position: &mut Position, bits: u8) -> u8 {
    if bits > 15 {
        return 8;
    }
    if !position.is_open() {
        return 9;
    }
    let unready = position.unready(bits);
    if !unready.is_empty() {
        position.penalise(&unready);
        return 0;
    }
    let (gain, cost) = match bits.count_ones() {
        1 => (3000, 1000),
        2 => (1500, 1500),
        3 => (1000, 3000),
        _ => (0, 0),
    };
    for seat in 0..4 {
        position.pay(seat, if is_ready(bits, seat) { gain } else { -cost });
    }
    position.counter += 1;
    position.finish(!is_ready(bits, position.dealer as usize));
    0
}

/// Books a chombo; gives the refusal, 0 if accepted (01, Chombo).
pub fn chombo(position: &mut Position, seat: u8) -> u8 {
    if seat > 3 {
        return 8;
    }
    if !position.is_open() {
        return 9;
    }
    position.penalise(&[seat as usize]);
    0
}

/// Books a pao, the feeder of a holder's yaku; gives the refusal, 0 if accepted (02, S-8).
pub fn pao(position: &mut Position, holder: u8, feeder: u8, yaku: u8) -> u8 {
    if holder > 3 || feeder > 3 {
        return 8;
    }
    if !position.is_open() {
        return 9;
    }
    if holder == feeder || ![DRAGONS, WINDS].contains(&yaku) || position.feeder(holder, yaku).is_some() {
        return 18;
    }
    position.feeders[place(holder, yaku)] = feeder + 1;
    0
}

/// Books any of the six; a position alone has no result to supersede, so a correction is refused (01, The game; 02, S-6, S-8 and S-10).
pub fn book(position: &mut Position, entry: &Entry) -> u8 {
    match entry {
        Entry::Riichi(seat) => riichi(position, *seat),
        Entry::Win(record) => win(position, record),
        Entry::Draw(bits) => draw(position, *bits),
        Entry::Chombo(seat) => chombo(position, *seat),
        Entry::MultiRon { number, records } => multi_ron(position, *number, records),
        Entry::Pao { holder, feeder, yaku } => pao(position, *holder, *feeder, *yaku),
        Entry::Correction(_) if !position.is_in_form() => 9,
        Entry::Correction(_) => 20,
    }
}
