//! A log booked entry by entry, by the core, the other scorer and the ledger.

use archive::Games;
use other_scorer::notation::hex::to_hex;
use other_scorer::Entry;

use crate::both::Core;

/// An entry with where it stands, the games before it, its refusal and the games after it.
pub struct Step {
    pub at: usize,
    pub entry: Entry,
    pub before: Games,
    pub refusal: u8,
    pub after: Games,
}

/// The entries of a log, and where the walk stopped with refusal 14.
pub struct Walk {
    pub steps: Vec<Step>,
    pub stopped: Option<usize>,
}

/// Books the entries of a log from an offset on, in games as they stand there.
pub fn walk(core: &mut Core, log: &[u8], from: usize, games: Games) -> Walk {
    let (mut at, mut games, mut steps) = (from, games, Vec::new());
    loop {
        let next = core.log_next(log, at);
        if next.end != 0 || next.refusal != 0 {
            return Walk { steps, stopped: (next.refusal != 0).then_some(at) };
        }
        // A length that is not the entry's is a difference already, and leaves the part no entry or some bytes longer.
        let part = log.get(at..at.saturating_add(next.length)).unwrap_or_default();
        let before = games.clone();
        let input = || format!("log {}", to_hex(log));
        let (refusal, entry) = games.book_entry(&mut core.differences, part, &input);
        let Some(entry) = entry else {
            return Walk { steps, stopped: Some(at) };
        };
        steps.push(Step { at, entry, before, refusal, after: games.clone() });
        at += part.len();
    }
}

/// Books a whole log in a fresh game.
pub fn whole(core: &mut Core, log: &[u8]) -> Walk {
    let games = Games::fresh(&mut core.differences);
    walk(core, log, 0, games)
}
