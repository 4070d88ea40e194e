//! Words as they are meant, whatever a text processor or a habit has put around them.

use other_scorer::notation::tiles::plain;

/// Quotation marks and signs that are not seen, which come with a text that is copied.
const NO_SIGNS: &str = "\"'`“”„‟‘’‚‛«»‹›「」『』\u{200b}\u{200c}\u{200d}\u{200e}\u{200f}\u{2060}\u{feff}";

/// The signs of a comma.
const COMMAS: [char; 3] = [',', ';', '、'];

/// What stands before lists, which may go on in the next word.
const LISTS: [&str; 2] = ["discards=", "groups="];

/// A word with the two hyphens at its start that a text processor makes a dash of.
pub fn with_hyphens(word: String) -> String {
    match word.trim_start_matches(['–', '—']) {
        rest if rest.len() < word.len() => format!("--{rest}"),
        _ => word,
    }
}

/// A word as it is meant: full-width signs as plain ones, quotation marks and signs that are not seen left out. No option is made so.
pub fn meant(word: &str) -> String {
    let meant: String = word.chars().map(plain).filter(|sign| !NO_SIGNS.contains(*sign)).collect();
    let is_made = meant.starts_with('-') && !word.starts_with('-');
    if is_made {
        word.into()
    } else {
        meant
    }
}

/// Whether quotation marks stand in a word.
pub fn is_quoted(word: &str) -> bool {
    word.contains(|sign| NO_SIGNS.contains(sign))
}

/// Double riichi in one word, as others write it.
const DOUBLE: [&str; 2] = ["doubleriichi", "double-riichi"];

/// Adds a word to others. `double riichi` is double. A list that ends with a comma goes on in it; a comma behind another word is left out.
pub fn add(list: &mut Vec<(usize, String)>, place: usize, word: &str) {
    let is_list = |word: &str| LISTS.iter().any(|start| word.to_ascii_lowercase().starts_with(start));
    let is = |word: &str, known: &str| word.eq_ignore_ascii_case(known);
    match list.last_mut() {
        _ if DOUBLE.iter().any(|known| is(word, known)) => list.push((place, "double".into())),
        Some((_, last)) if is(last, "double") && is(word, "riichi") => {}
        Some((_, last)) if is_list(last) && last.ends_with(COMMAS) && !word.contains('=') => *last += word,
        _ if is_list(word) => list.push((place, word.into())),
        _ => list.extend(Some(word.trim_end_matches(COMMAS)).filter(|word| !word.is_empty()).map(|word| (place, word.to_string()))),
    }
}
