//! The slip of a scored hand for the club book (02, S-2).

use crate::score::Scored;

/// The bytes of a slip: "six lines of 24 characters and a line feed".
pub const LENGTH: usize = 150;

/// The refusal of a page that is too short.
pub const SHORT_PAGE: u8 = 16;

/// The number of the first yakuman (01, Yaku).
const FIRST_YAKUMAN: u32 = 26;

/// The text of an accepted hand's slip: a label left in 10 columns, a value right in 14.
pub fn text(scored: &Scored) -> String {
    let (han, fu) = match scored.yaku >> FIRST_YAKUMAN {
        0 => (scored.h.to_string(), scored.fu.to_string()),
        _ => ("YAKUMAN".into(), "0".into()),
    };
    let [a, b, c, d] = scored.changes.map(|change| change.to_string());
    let lines = [("HAN", han), ("FU", fu), ("SEAT 0", a), ("SEAT 1", b), ("SEAT 2", c), ("SEAT 3", d)];
    lines.map(|(label, value)| format!("{label:<10}{value:>14}\n")).concat()
}

/// Writes a slip at the start of a page; its refusal, Score's own first, or 0.
pub fn write(scored: &Scored, page: &mut [u8]) -> u8 {
    match (scored.refusal, page.get_mut(..LENGTH)) {
        (0, Some(part)) => part.copy_from_slice(text(scored).as_bytes()),
        (0, None) => return SHORT_PAGE,
        (refusal, _) => return refusal,
    }
    0
}
