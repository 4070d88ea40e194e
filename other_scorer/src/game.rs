//! The game: the bookings left standing, with the position after each of them, so that the last result can be put right (02, S-10). A
//! correction takes the last booking off and books its own result in the position below.

use std::rc::Rc;

use crate::entry::Entry;
use crate::position::{book, Position};

/// Bookings left standing, each with the position after it, the last one first; copies of a game share them.
#[derive(Clone, Debug, Default, PartialEq, Eq)]
struct Standing(Option<Rc<(Entry, Position, Standing)>>);

#[derive(Clone, Debug, PartialEq, Eq)]
pub struct Game {
    /// The position before the list, and, where a result led to it that may be put right, the position before that one.
    start: Position,
    before: Option<Position>,
    standing: Standing,
}

impl Game {
    /// A game at its start (01, The game).
    pub fn fresh() -> Game {
        Game::lent(Position::fresh(), None)
    }

    /// A game with any position, and an earlier one, any too, where the last result was booked in it (02, S-10).
    pub fn lent(position: Position, earlier: Option<Position>) -> Game {
        Game { start: position, before: earlier, standing: Standing::default() }
    }

    /// The position that stands.
    pub fn now(&self) -> &Position {
        self.standing.0.as_ref().map_or(&self.start, |last| &last.1)
    }

    /// The last accepted booking, none before the first.
    pub fn last(&self) -> Option<&Entry> {
        self.standing.0.as_ref().map(|last| &last.0)
    }

    /// The game without the last finished booking, none where there is none to supersede: another booking has been accepted since (02,
    /// S-10).
    fn without_last(&self) -> Option<Game> {
        match &self.standing.0 {
            Some(last) => last.0.finishes().then(|| Game { standing: last.2.clone(), ..*self }),
            None => self.before.map(|earlier| Game::lent(earlier, None)),
        }
    }

    /// The position in which the last finished booking was made, none where there is none to supersede (02, S-10).
    pub fn earlier(&self) -> Option<Position> {
        self.without_last().map(|game| *game.now())
    }

    /// Whether its position is in form, and the earlier one that is kept (02, S-10).
    pub fn is_in_form(&self) -> bool {
        self.now().is_in_form() && self.earlier().is_none_or(|earlier| earlier.is_in_form())
    }

    /// Books an entry; gives the refusal, 0 if accepted (01, The game; 02, S-6, S-8 and S-10).
    pub fn book(&mut self, entry: &Entry) -> u8 {
        if let Entry::Correction(new) = entry {
            return self.correct(new);
        }
        // A game out of form is refused like one that is over.
        let mut position = Position { over: self.now().over || !self.is_in_form(), ..*self.now() };
        let number = book(&mut position, entry);
        if number == 0 {
            self.standing = Standing(Some(Rc::new((entry.clone(), position, self.standing.clone()))));
        }
        number
    }

    /// Books a result in place of the last finished booking, which stands where the new one is refused (02, S-10).
    fn correct(&mut self, new: &Entry) -> u8 {
        if !self.is_in_form() {
            return 9;
        }
        let Some(mut game) = self.without_last() else { return 20 };
        let number = game.book(new);
        if number == 0 {
            *self = game;
        }
        number
    }

    /// The bookings left standing since the start, the first one first.
    pub fn standing(&self) -> Vec<&Entry> {
        let mut list: Vec<&Entry> = Vec::new();
        let mut rest = &self.standing;
        while let Some(last) = &rest.0 {
            list.push(&last.0);
            rest = &last.2;
        }
        list.reverse();
        list
    }

    /// The position that the bookings left standing give, made again one after the other; none if one of them is refused then (02, S-10:
    /// "The scores found after a list are those of the bookings left standing").
    pub fn replayed(&self) -> Option<Position> {
        let mut position = self.start;
        self.standing().into_iter().all(|entry| book(&mut position, entry) == 0).then_some(position)
    }
}
