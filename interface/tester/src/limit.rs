//! The limit of a log: bytes past 65,536 are not read in a game (01), and the tool says where the cut is.

use other_scorer::log::LONGEST;

use crate::both::Core;
use crate::names::points;

/// The bytes of a log that are read.
pub fn read(log: &[u8]) -> &[u8] {
    &log[..log.len().min(LONGEST)]
}

/// Of a log past the limit, in words: how long it is, and which entry the cut is in or after.
pub fn said(core: &mut Core, log: &[u8]) -> Option<String> {
    let number = |n: usize| points(n as i64);
    let long = || format!("the log has {} bytes, and a game is read from the first {}", number(log.len()), number(LONGEST));
    (log.len() > LONGEST).then(|| format!("{}: {}", long(), place(core, log)))
}

/// Where the cut is among the entries of a log past the limit.
fn place(core: &mut Core, log: &[u8]) -> String {
    let (mut at, mut entry) = (0, 0);
    loop {
        let next = core.log_next(log, at);
        if next.refusal != 0 || next.end != 0 {
            return format!("the cut is past byte {at}, where 14 ends the log");
        }
        entry += 1;
        let end = at + next.length;
        if end == LONGEST {
            return format!("the cut is after entry {entry}");
        }
        if end > LONGEST {
            return format!("the cut is in entry {entry}, which begins at byte {at}");
        }
        at = end;
    }
}
