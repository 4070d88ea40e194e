//! One entry in three games at once: the archive's, the other scorer's and the ledger.

use other_scorer::log::{entry, next, Next};
use other_scorer::notation::hex::to_hex;
use other_scorer::{Entry, Game, Ledger};

use crate::{self as archive, same, Differences};

/// The same game, kept three ways.
#[derive(Clone)]
pub struct Games {
    pub archive: archive::Game,
    pub other: Game,
    ledger: Ledger,
}

/// An entry in words, its records in hexadecimal.
fn words(entry: &Entry) -> String {
    match entry {
        Entry::Win(record) => format!("Win({})", to_hex(record)),
        Entry::MultiRon { number, records } => format!("MultiRon({number}, {})", to_hex(records)),
        Entry::Correction(new) => format!("Correction({})", words(new)),
        other => format!("{other:?}"),
    }
}

/// Books by the entry's own call.
fn call(game: &mut archive::Game, entry: &Entry) -> u8 {
    match entry {
        Entry::Riichi(seat) => archive::riichi(game, *seat),
        Entry::Win(record) => archive::win(game, record),
        Entry::Draw(bits) => archive::draw(game, *bits),
        Entry::Chombo(seat) => archive::chombo(game, *seat),
        Entry::MultiRon { number, records } => archive::multi_ron(game, *number, records),
        Entry::Pao { holder, feeder, yaku } => archive::pao(game, *holder, *feeder, *yaku),
        Entry::Correction(new) => match new.as_ref() {
            Entry::Win(record) => archive::correct_win(game, record),
            Entry::Draw(bits) => archive::correct_draw(game, *bits),
            Entry::Chombo(seat) => archive::correct_chombo(game, *seat),
            Entry::MultiRon { number, records } => archive::correct_multi_ron(game, *number, records),
            other => unreachable!("a correction of {other:?}"),
        },
    }
}

impl Games {
    /// Fresh games, compared.
    pub fn fresh(differences: &mut Differences) -> Games {
        let games = Games { archive: same::fresh_game(), other: Game::fresh(), ledger: Ledger::fresh() };
        differences.same("the fresh game", archive::fresh_game(), games.archive, String::new);
        games
    }

    /// Games in any state, with any bytes for marks.
    pub fn of(game: archive::Game) -> Games {
        Games { archive: game, other: same::to_other_game(&game), ledger: same::ledger(&game) }
    }

    /// Books in all three, by the entry's own call, and compares; gives the archive's refusal.
    pub fn book(&mut self, differences: &mut Differences, entry: &Entry, input: &dyn Fn() -> String) -> u8 {
        let before = self.archive;
        let got = call(&mut self.archive, entry);
        self.compare(differences, before, entry, got, input);
        got
    }

    /// Books the entry that bytes begin with in all three, by `hb_book_entry`, and compares; gives the archive's refusal, and the
    /// entry unless there is none.
    pub fn book_entry(&mut self, differences: &mut Differences, bytes: &[u8], input: &dyn Fn() -> String) -> (u8, Option<Entry>) {
        let before = self.archive;
        let got = archive::book_entry(&mut self.archive, bytes);
        let Next::Entry { kind, argument, part } = next(bytes, 0) else {
            let input = || format!("{} in {before:?}; {}", to_hex(bytes), input());
            differences.same("no entry to book", (got, self.archive), (14, before), input);
            self.archive = before;
            return (got, None);
        };
        let entry = entry(kind, argument, part);
        self.compare(differences, before, &entry, got, input);
        (got, Some(entry))
    }

    /// Books in the other two what the archive has booked; compares refusals and whole games, byte by byte. The archive's game then
    /// goes on as the other's, so that each difference is found by itself.
    fn compare(&mut self, differences: &mut Differences, before: archive::Game, entry: &Entry, got: u8, input: &dyn Fn() -> String) {
        let wanted = self.other.book(entry);
        let (ledger, number) = self.ledger.after(entry);
        self.ledger = ledger;
        let input = || format!("{} in {before:?}; {}", words(entry), input());
        differences.same("an entry's refusal", got, wanted, input);
        differences.same("an entry's refusal by the ledger", got, number, input);
        let other = same::after(&before, entry, wanted, self.other.now());
        differences.same("the game", self.archive, other, input);
        differences.same("the game by the ledger", &same::ledger(&self.archive), &self.ledger, input);
        let earlier = same::earlier(&self.archive).as_ref().map(same::to_other_position);
        differences.same("the earlier position", earlier, self.other.earlier(), input);
        self.archive = other;
    }

    /// Compares the position with that of the bookings left standing, made again (02, S-10).
    pub fn replay(&self, differences: &mut Differences, input: &dyn Fn() -> String) {
        let position = same::to_other_position(&self.archive.now);
        differences.same("the position of the bookings left standing", Some(position), self.other.replayed(), input);
    }
}
