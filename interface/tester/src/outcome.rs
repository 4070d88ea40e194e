//! What an entry of a log came to, in words: at which deal, who did what, what each seat paid, and what a win is worth.

use archive::Scored;
use other_scorer::codec::{pack, read};
use other_scorer::position::is_ready;
use other_scorer::record::RON;
use other_scorer::{multi_ron, Entry, Hand, Position};

use crate::both::Core;
use crate::names::{change, count, points, seat_wind, wind, yaku, FIRST_YAKUMAN};
use crate::walk::Step;

/// A hand that was won, and the core's score of it alone, without counters and sticks.
pub struct Win {
    pub hand: Hand,
    pub scored: Scored,
}

impl Win {
    /// What the winner gains without counters and sticks.
    pub fn gain(&self) -> i64 {
        self.scored.changes[self.hand.winner as usize].into()
    }

    /// The yaku by number and name, h, fu and the gain.
    fn worth(&self) -> String {
        let numbers = self.scored.yaku.numbers();
        let names: Vec<String> = numbers.iter().map(|&n| format!("{n} {}", yaku(n))).collect();
        let figures = match numbers.last() {
            Some(&(FIRST_YAKUMAN..)) => "yakuman".into(),
            _ => format!("h {}, fu {}", self.scored.h, self.scored.fu),
        };
        format!("{}; {figures}; gain {}", names.join(", "), points(self.gain()))
    }
}

/// An entry with the position that it is booked in, the booking (of a correction its result), and the hands won, if it was accepted.
pub struct Outcome<'a> {
    pub step: &'a Step,
    pub position: Position,
    pub booking: &'a Entry,
    pub wins: Vec<Win>,
}

/// The position that a step's entry is booked in: a correction's is the earlier one, if there is one (02, S-10).
pub fn made_in(step: &Step) -> Position {
    let game = &step.before.other;
    match (&step.entry, game.earlier()) {
        (Entry::Correction(_), Some(earlier)) => earlier,
        _ => *game.now(),
    }
}

/// The hands of a win or of a multiple ron; none where a record is unreadable.
pub fn hands(booking: &Entry) -> Vec<Hand> {
    match booking {
        Entry::Win(record) => read(record).into_iter().collect(),
        Entry::MultiRon { number, records } => multi_ron::hands(*number, records).unwrap_or_default(),
        _ => Vec::new(),
    }
}

/// Seats one after the other.
fn seats(list: &[usize]) -> String {
    let names: Vec<String> = list.iter().map(|seat| format!("seat {seat}")).collect();
    names.join(", ")
}

/// The seats that a draw's bits say are ready.
pub fn ready(bits: u8) -> Vec<usize> {
    (0..4).filter(|&seat| is_ready(bits, seat)).collect()
}

impl<'a> Outcome<'a> {
    /// What a step came to; the core scores each hand of an accepted win.
    pub fn of(core: &mut Core, step: &'a Step) -> Outcome<'a> {
        let position = made_in(step);
        let booking = match &step.entry {
            Entry::Correction(new) => new.as_ref(),
            booking => booking,
        };
        let won = if step.refusal == 0 { hands(booking) } else { Vec::new() };
        let mut score = |hand: Hand| Win { scored: core.score(&pack(&hand), position.dealer, position.wind), hand };
        Outcome { step, position, booking, wins: won.into_iter().map(&mut score).collect() }
    }

    /// What the entry gave each seat or took of it; a correction's are those of its result, from the scores before the hand's end.
    pub fn changes(&self) -> [i64; 4] {
        let after = &self.step.after.archive.now.scores;
        let moved = |seat: usize| i64::from(after[seat]) - i64::from(self.position.scores[seat]);
        if self.step.refusal == 0 {
            [0, 1, 2, 3].map(moved)
        } else {
            [0; 4]
        }
    }

    /// A seat with its wind at that deal.
    fn seat(&self, seat: u8) -> String {
        match seat {
            0..4 => format!("seat {seat} ({})", seat_wind(seat, self.position.dealer)),
            _ => format!("seat {seat}"),
        }
    }

    /// Who did what.
    fn deed(&self) -> String {
        match self.booking {
            Entry::Riichi(seat) => format!("{} declares riichi", self.seat(*seat)),
            Entry::Chombo(seat) => format!("chombo of {}", self.seat(*seat)),
            Entry::Draw(0) => "a draw, nobody is ready".into(),
            Entry::Draw(15) => "a draw, everybody is ready".into(),
            Entry::Draw(bits) => format!("a draw, ready: {}", seats(&ready(*bits))),
            Entry::Pao { holder, feeder, yaku: n } => {
                let name = if *n == 29 { "four wind triplets" } else { yaku((*n).into()) };
                format!("{} is named as feeder of {}, yaku {n} {name}", self.seat(*feeder), self.seat(*holder))
            }
            booking => {
                let won: Vec<String> = hands(booking).iter().map(|hand| self.won(hand)).collect();
                if won.is_empty() {
                    "a win whose record is not read".into()
                } else {
                    won.join(", ")
                }
            }
        }
    }

    /// Who won, and how.
    fn won(&self, hand: &Hand) -> String {
        match hand.how {
            RON => format!("{} wins by ron from {}", self.seat(hand.winner), self.seat(hand.discarder)),
            _ => format!("{} wins by tsumo", self.seat(hand.winner)),
        }
    }

    /// What counters and sticks made of the gain of a single win.
    fn with_counters(&self, win: &Win) -> String {
        let Position { counter, sticks, .. } = self.position;
        if self.wins.len() > 1 || counter == 0 && sticks == 0 {
            return String::new();
        }
        let in_all = self.changes()[win.hand.winner as usize];
        format!(", with {} and {} {}", count(counter as usize, "counter"), count(sticks as usize, "stick"), points(in_all))
    }

    /// The deal and who did what; then of each win what it is worth.
    pub fn lines(&self) -> Vec<String> {
        let Position { dealer, wind: round, counter, sticks, .. } = self.position;
        let deal = format!("dealer seat {dealer}, wind {}", wind(round));
        let table = format!("{}, {}", count(counter as usize, "counter"), count(sticks as usize, "stick"));
        let worth = self.wins.iter().map(|win| {
            let whose = if self.wins.len() > 1 { format!("seat {}: ", win.hand.winner) } else { String::new() };
            format!("{whose}{}{}", win.worth(), self.with_counters(win))
        });
        [format!("{deal}, {table}: {}", self.deed())].into_iter().chain(worth).collect()
    }

    /// The changes as cells of a table.
    pub fn cells(&self) -> [String; 4] {
        self.changes().map(change)
    }
}

/// The seats by their scores, the highest first, equal ones together, and the sticks that lie on the table.
pub fn standings(position: &Position) -> String {
    let mut scores = position.scores.to_vec();
    scores.sort_by(|a, b| b.cmp(a));
    scores.dedup();
    let mut place = 1;
    let mut said = Vec::new();
    for score in scores {
        let with: Vec<usize> = (0..4).filter(|&seat| position.scores[seat] == score).collect();
        said.push(format!("{place} {} with {}", seats(&with), points(score.into())));
        place += with.len();
    }
    format!("standings: {}; {} on the table", said.join("; "), count(position.sticks as usize, "stick"))
}
