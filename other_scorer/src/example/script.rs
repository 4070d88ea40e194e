//! A log in the making, with the game it books.

use crate::codec::pack;
use crate::deal::{on_tile_of, themed};
use crate::entry::Entry;
use crate::game::Game;
use crate::position::Position;
use crate::record::{Hand, RON};
use crate::rng::Rng;
use crate::score::{score, Scored};
use crate::sound::refusal;

pub struct Script {
    pub log: Vec<u8>,
    game: Game,
    /// The position that stands in it.
    pub position: Position,
    pub rng: Rng,
}

impl Script {
    /// An empty log and a fresh game.
    pub fn new(seed: u64) -> Script {
        Script { log: Vec::new(), game: Game::fresh(), position: Position::fresh(), rng: Rng::new(seed) }
    }

    /// Adds an entry, books it, gives its refusal (01, Log).
    pub fn add(&mut self, entry: Entry) -> u8 {
        self.log.extend(entry.bytes());
        let number = self.game.book(&entry);
        self.position = *self.game.now();
        number
    }

    /// The position in which the last result was booked, none where there is none to put right (02, S-10).
    pub fn earlier(&self) -> Option<Position> {
        self.game.earlier()
    }

    /// Some seats in random order, the first ones those given.
    pub fn seats(&mut self, first: &[u8]) -> Vec<u8> {
        let mut rest: Vec<u8> = (0..4).filter(|seat| !first.contains(seat)).collect();
        self.rng.shuffle(&mut rest);
        [first, &rest].concat()
    }

    /// Some seats in random order, the first ones those given, then those with the points for riichi (02, S-11).
    pub fn able_first(&mut self, first: &[u8]) -> Vec<u8> {
        let mut seats = self.seats(first);
        seats[first.len()..].sort_by_key(|&seat| !self.position.affords_riichi(seat));
        seats
    }

    /// All seats from the highest score to the lowest.
    pub fn by_score(&self) -> Vec<u8> {
        let mut seats = vec![0, 1, 2, 3];
        seats.sort_by_key(|&seat| -self.position.scores[seat as usize]);
        seats
    }

    /// Wins of the dealer with a yakuman until it has the points for riichi (02, S-11).
    pub fn fund_dealer(&mut self) {
        while self.position.is_open() && !self.position.affords_riichi(self.position.dealer) {
            self.win(self.position.dealer, |hand, scored| hand.riichi == 0 && scored.h == 0);
        }
    }

    /// A seat that does not deal.
    pub fn child(&mut self) -> u8 {
        (self.position.dealer + self.rng.within(1, 3)) % 4
    }

    /// The hand's score in the position.
    pub fn score(&self, hand: &Hand) -> Scored {
        score(&pack(hand), self.position.dealer, self.position.wind)
    }

    /// A sound hand of this winner that passes a test.
    pub fn find(&mut self, winner: u8, test: impl Fn(&Hand, &Scored) -> bool) -> Hand {
        loop {
            let mut hand = themed(&mut self.rng);
            hand.winner = winner;
            if hand.how == RON {
                hand.discarder = (winner + self.rng.within(1, 3)) % 4;
            }
            if refusal(&hand) == 0 && test(&hand, &self.score(&hand)) {
                return hand;
            }
        }
    }

    /// A win of a winner not declared yet that passes a test; riichi first if the hand has it, which the winner has the points for.
    pub fn win(&mut self, winner: u8, test: impl Fn(&Hand, &Scored) -> bool) {
        let able = self.position.affords_riichi(winner);
        let hand = self.find(winner, |hand, scored| scored.refusal == 0 && (hand.riichi == 0 || able) && test(hand, scored));
        if hand.riichi != 0 {
            self.add(Entry::Riichi(winner));
        }
        self.add(Entry::Win(pack(&hand)));
    }

    /// Hands of some winners on one tile of a seat, the first of which passes a test; each would be paid, had its seat declared what
    /// it shows, for which it has the points (02, S-6 and S-11).
    pub fn hands(&mut self, winners: &[u8], from: u8, test: impl Fn(&Hand) -> bool) -> Vec<Hand> {
        let able: Vec<bool> = winners.iter().map(|&seat| self.position.affords_riichi(seat)).collect();
        let is_ron = |hand: &Hand, scored: &Scored| hand.how == RON && hand.discarder == from && scored.refusal == 0;
        let mut hands = vec![self.find(winners[0], |hand, scored| is_ron(hand, scored) && (hand.riichi == 0 || able[0]) && test(hand))];
        while hands.len() < winners.len() {
            let riichi = if able[hands.len()] { self.rng.pick(&[0, 0, 1]) } else { 0 };
            let hand = on_tile_of(&mut self.rng, &hands[0], winners[hands.len()], riichi);
            hands.extend(hand.filter(|hand| self.score(hand).refusal == 0));
        }
        hands
    }

    /// A multiple ron of these hands; the riichi of those that have it first, where it is to be paid (02, S-6).
    pub fn multi_ron(&mut self, hands: &[Hand], paid: bool) -> u8 {
        for hand in hands.iter().filter(|hand| paid && hand.riichi > 0) {
            self.add(Entry::Riichi(hand.winner));
        }
        self.add(Entry::MultiRon { number: hands.len() as u8, records: hands.iter().flat_map(pack).collect() })
    }

    /// A draw with these seats ready (01, Draw).
    pub fn draw(&mut self, ready: &[u8]) -> u8 {
        let bits = ready.iter().fold(0, |bits, seat| bits | 8 >> seat);
        self.add(Entry::Draw(bits))
    }
}
