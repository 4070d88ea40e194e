//! The ledger: a second bookkeeping, from the bookings' arguments alone (01, Ledger; 02, S-5 to S-8, S-10 and S-11).
//! It shares only the scoring of a win with the position.

use std::collections::{BTreeMap, BTreeSet};

use crate::codec::read;
use crate::entry::Entry::{self, Chombo, Correction, Draw, MultiRon, Pao, Riichi, Win};
use crate::pao;
use crate::score::score;

#[derive(Clone, Debug, PartialEq, Eq)]
pub struct Ledger {
    pub scores: [i64; 4],
    pub sticks: i64,
    pub declared: BTreeSet<u8>,
    pub dealer: u8,
    pub wind: u8,
    pub hands: u32,
    pub over: bool,
    pub counter: i64,
    /// The feeder of each holder and yaku that are named (02, S-8).
    pub pao: BTreeMap<(u8, u8), u8>,
    /// Where the last accepted booking finished a hand: the ledger before it, without what that one kept (02, S-10).
    pub earlier: Option<Box<Ledger>>,
}

/// The seats set in a draw's four bits, seat 0 first (01, Draw).
fn ready(bits: u8) -> BTreeSet<u8> {
    let digits = format!("{bits:04b}");
    (0..4).zip(digits.chars()).filter(|(_, digit)| *digit == '1').map(|(seat, _)| seat).collect()
}

/// The winner's seat in a record: its second and third bit (01, Tiles and the hand record).
fn winner(record: &[u8]) -> u8 {
    record[0] % 128 / 32
}

/// The discarder's seat in a record of a ron, whose first bit is set: its fourth and fifth bit (01, Tiles and the hand record).
fn discarder(record: &[u8]) -> Option<u8> {
    (record[0] / 128 == 1).then_some(record[0] % 32 / 8)
}

/// Whether a record's riichi field is non-zero: its sixth and seventh bit (01, Tiles and the hand record).
fn has_riichi(record: &[u8]) -> bool {
    record[0] % 8 / 2 != 0
}

/// The situation, indicator and winning tile of a record: its bits 7 to 21 as one number (01, Tiles and the hand record).
fn taken(record: &[u8]) -> u32 {
    let bits = record[..3].iter().fold(0, |bits, &byte| bits << 8 | byte as u32);
    bits >> 2 & 0x7FFF
}

/// The records of a multiple ron: m is the number of a record's bits 22 to 24, and says how many bytes are its own; the last has all
/// that is left, and one that does not fit is the last, which Read refuses (02, S-6).
fn records(number: u8, bytes: &[u8]) -> Vec<&[u8]> {
    let m = bytes.get(2..4).map(|two| two[0] as usize % 4 * 2 + two[1] as usize / 128);
    match m.and_then(|m| [13, 12, 11, 10, 8].get(m)) {
        Some(&own) if number > 1 && own <= bytes.len() => {
            let (first, rest) = bytes.split_at(own);
            [vec![first], records(number - 1, rest)].concat()
        }
        _ => vec![bytes],
    }
}

/// Whether records that read are no rons on one tile by winners of their own (02, S-6).
fn is_unfit(records: &[&[u8]]) -> bool {
    let winners: BTreeSet<u8> = records.iter().map(|record| winner(record)).collect();
    let tiles: BTreeSet<(Option<u8>, u32)> = records.iter().map(|record| (discarder(record), taken(record))).collect();
    records.iter().any(|record| discarder(record).is_none()) || winners.len() < records.len() || tiles.len() > 1
}

/// The winners of a win or a multiple ron, in turn order after its discarder, if there is one (01, Ledger; 02, S-6).
fn winners(booking: &Entry) -> Vec<u8> {
    match booking {
        Win(record) => vec![winner(record)],
        MultiRon { number, records: bytes } => {
            let all = records(*number, bytes);
            let turns = discarder(all[0]).into_iter().flat_map(|from| (1..4).map(move |step| (from + step) % 4));
            turns.filter(|seat| all.iter().any(|record| winner(record) == *seat)).collect()
        }
        _ => vec![],
    }
}

impl Ledger {
    /// The ledger before any booking (01, Ledger).
    pub fn fresh() -> Ledger {
        let (scores, declared, pao) = ([30_000; 4], BTreeSet::new(), BTreeMap::new());
        Ledger { scores, sticks: 0, declared, dealer: 0, wind: 0, hands: 0, over: false, counter: 0, pao, earlier: None }
    }

    /// Whether the ledger is out of form, or the earlier one that is kept (01, The game, refusal 9; 02, S-10).
    fn is_out_of_form(&self) -> bool {
        let in_form = self.dealer <= 3
            && self.wind <= 1
            && self.hands <= 200
            && self.declared.len() as i64 <= self.sticks
            && self.counter <= self.hands as i64
            && self.pao.iter().all(|((holder, _), feeder)| *feeder <= 3 && feeder != holder)
            && self.scores.iter().all(|&score| -28_540_000 <= score)
            && self.scores.iter().sum::<i64>() + 1000 * self.sticks == 120_000;
        !in_form || self.earlier.as_ref().is_some_and(|earlier| earlier.is_out_of_form())
    }

    /// The first listed refusal that an entry meets, 0 if none (01, The game; Ledger; 02, S-10 and S-11).
    pub fn refusal(&self, entry: &Entry) -> u8 {
        let closed = self.over || self.hands == 200 || self.is_out_of_form();
        let met = match entry {
            Riichi(seat) => {
                let short = self.scores.get(*seat as usize).is_some_and(|&score| score < 1000);
                vec![(8, *seat > 3), (9, closed), (10, self.declared.contains(seat)), (21, short)]
            }
            Win(_) | MultiRon { .. } if closed => vec![(9, true)],
            MultiRon { number: 0 | 4.., .. } => vec![(17, true)],
            MultiRon { number, records: bytes } => {
                let all = records(*number, bytes);
                let unreadable = all.iter().find_map(|record| read(record).err());
                let won = || all.iter().find_map(|record| Some(self.refusal(&Win(record.to_vec()))).filter(|&number| number > 0));
                vec![match unreadable {
                    Some(number) => (number, true),
                    None if is_unfit(&all) => (17, true),
                    None => (won().unwrap_or(0), true),
                }]
            }
            Win(record) => match score(record, self.dealer, self.wind).refusal {
                0 => vec![(11, has_riichi(record) != self.declared.contains(&winner(record)))],
                number => vec![(number, true)],
            },
            Draw(bits) => vec![(8, *bits > 15), (9, closed)],
            Chombo(seat) => vec![(8, *seat > 3), (9, closed)],
            Pao { holder, feeder, yaku } => {
                let unfit = holder == feeder || *yaku < 28 || *yaku > 29 || self.pao.contains_key(&(*holder, *yaku));
                vec![(8, *holder.max(feeder) > 3), (9, closed), (18, unfit)]
            }
            Correction(new) => {
                let own = self.earlier.as_ref().map_or(20, |earlier| earlier.refusal(new));
                vec![(9, self.is_out_of_form()), (own, true)]
            }
        };
        met.into_iter().find(|(_, holds)| *holds).map_or(0, |(number, _)| number)
    }

    /// What the counters add to a seat's change at a win (02, S-5; 000, article 50).
    fn added(&self, record: &[u8], seat: u8) -> i64 {
        let each = match discarder(record) {
            _ if winner(record) == seat => 300,
            None => -100,
            Some(payer) if payer == seat => -300,
            Some(_) => 0,
        };
        each * self.counter
    }

    /// Who pays an accepted win by pao, the feeder of the yaku that it is reported with; none where it is paid plainly (02, S-8).
    fn pao_feeder(&self, record: &[u8]) -> Option<u8> {
        let yaku = pao::yaku(&read(record).ok()?, self.dealer, self.wind)?;
        self.pao.get(&(winner(record), yaku)).copied()
    }

    /// What an accepted win gives or costs a seat, sticks left out: Score's change and the counters; of those who pay by pao, the
    /// feeder the whole, or half where there is a discarder, who has the other half and the counters (02, S-5 and S-8).
    fn paid(&self, record: &[u8], seat: u8) -> i64 {
        let changes = score(record, self.dealer, self.wind).changes.map(i64::from);
        let feeder = self.pao_feeder(record).filter(|_| seat != winner(record));
        let Some(feeder) = feeder else { return changes[seat as usize] + self.added(record, seat) };
        let whole = changes[winner(record) as usize];
        let share = |payer: u8, points: i64| if payer == seat { -points } else { 0 };
        match discarder(record) {
            None => share(feeder, whole + 300 * self.counter),
            Some(payer) => share(feeder, whole / 2) + share(payer, whole / 2 + 300 * self.counter),
        }
    }

    /// The seats of which an accepted booking is a chombo: one, or those declared and not ready at a draw (01, Ledger; 02, S-7).
    fn fined_seats(&self, booking: &Entry) -> BTreeSet<u8> {
        match booking {
            Chombo(seat) => BTreeSet::from([*seat]),
            Draw(bits) => &self.declared - &ready(*bits),
            _ => BTreeSet::new(),
        }
    }

    /// What a chombo of some seats gives or costs a seat: 3,000 from each, less 12,000 if it is one of them, and its stick (02, S-7).
    fn fine(&self, fined: &BTreeSet<u8>, seat: u8) -> i64 {
        let back = 1000 * self.declared.contains(&seat) as i64;
        3000 * fined.len() as i64 - 12_000 * fined.contains(&seat) as i64 + back
    }

    /// What an accepted booking that is no correction gives or costs a seat (01, Ledger; 02, S-5 to S-8).
    fn moved(&self, booking: &Entry, seat: u8) -> i64 {
        let fined = self.fined_seats(booking);
        match booking {
            Riichi(own) if *own == seat => -1000,
            Win(record) if winner(record) == seat => self.paid(record, seat) + 1000 * self.sticks,
            Win(record) => self.paid(record, seat),
            MultiRon { number, records: bytes } => {
                let (winners, bare) = (winners(booking), Ledger { counter: 0, sticks: 0, ..self.clone() });
                let all = records(*number, bytes);
                let each = all.into_iter().map(|record| {
                    let kept = if winner(record) == winners[0] { self } else { &bare };
                    kept.moved(&Win(record.to_vec()), seat)
                });
                each.sum()
            }
            Draw(bits) if fined.is_empty() => {
                let ready = ready(*bits);
                match ready.len() as i64 {
                    0 | 4 => 0,
                    r if ready.contains(&seat) => 3000 / r,
                    r => -3000 / (4 - r),
                }
            }
            Draw(_) | Chombo(_) => self.fine(&fined, seat),
            _ => 0,
        }
    }

    /// The sticks that an accepted booking leaves (01, Ledger; 02, S-7).
    fn left(&self, booking: &Entry) -> i64 {
        match booking {
            Riichi(_) => self.sticks + 1,
            Win(_) | MultiRon { .. } => 0,
            Draw(_) if self.fined_seats(booking).is_empty() => self.sticks,
            Draw(_) | Chombo(_) => self.sticks - self.declared.len() as i64,
            _ => self.sticks,
        }
    }

    /// The counter that an accepted booking leaves (02, S-5 to S-7).
    fn counted(&self, booking: &Entry) -> i64 {
        match booking {
            Win(_) | MultiRon { .. } if winners(booking).contains(&self.dealer) => self.counter + 1,
            Win(_) | MultiRon { .. } => 0,
            Draw(_) if self.fined_seats(booking).is_empty() => self.counter + 1,
            _ => self.counter,
        }
    }

    /// Whether an accepted booking passes the deal (01, The game; 02, S-6 and S-7).
    fn passes(&self, booking: &Entry) -> bool {
        match booking {
            Win(_) | MultiRon { .. } => !winners(booking).contains(&self.dealer),
            Draw(bits) if self.fined_seats(booking).is_empty() => !ready(*bits).contains(&self.dealer),
            _ => false,
        }
    }

    /// The ledger after an entry, and the entry's number (01, Ledger; 02, S-10).
    pub fn after(&self, entry: &Entry) -> (Ledger, u8) {
        let number = self.refusal(entry);
        if number != 0 {
            return (self.clone(), number);
        }
        if let (Correction(new), Some(earlier)) = (entry, &self.earlier) {
            return earlier.after(new);
        }
        let mut next = Ledger { earlier: None, ..self.clone() };
        next.scores = [0, 1, 2, 3].map(|seat| self.scores[seat as usize] + self.moved(entry, seat));
        next.sticks = self.left(entry);
        next.counter = self.counted(entry);
        if let Riichi(seat) = entry {
            next.declared.insert(*seat);
            return (next, 0);
        }
        if let Pao { holder, feeder, yaku } = entry {
            next.pao.insert((*holder, *yaku), *feeder);
            return (next, 0);
        }
        next.declared.clear();
        next.pao.clear();
        next.hands += 1;
        let deal = 4 * self.wind + self.dealer + self.passes(entry) as u8;
        next.over = deal == 8 || next.hands == 200;
        (next.wind, next.dealer) = (deal.min(7) / 4, deal.min(7) % 4);
        next.earlier = Some(Box::new(Ledger { earlier: None, ..self.clone() }));
        (next, 0)
    }

    /// The ledger of a whole list, and each entry's number (01, Ledger).
    pub fn of(list: &[Entry]) -> (Ledger, Vec<u8>) {
        list.iter().fold((Ledger::fresh(), Vec::new()), |(ledger, mut numbers), entry| {
            let (next, number) = ledger.after(entry);
            numbers.push(number);
            (next, numbers)
        })
    }
}
