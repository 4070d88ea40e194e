//! The sheet for the studio (docs/clips.tsv): the words of each clip in four languages, and the parts of a message, a pause between them.

use std::collections::BTreeMap;
use std::sync::OnceLock;

/// The columns of the words and of their reading in kana or pinyin.
const COLUMNS: [(usize, Option<usize>); 4] = [(2, Some(3)), (4, None), (5, None), (6, Some(7))];

/// The languages by their letters and their names; Japanese is 1.
pub const LANGUAGES: [(&str, &str); 4] = [("ja", "Japanese"), ("en", "English"), ("ko", "Korean"), ("zh", "Mandarin")];

/// The columns of each clip's line.
fn lines() -> &'static BTreeMap<u8, Vec<&'static str>> {
    static LINES: OnceLock<BTreeMap<u8, Vec<&str>>> = OnceLock::new();
    LINES.get_or_init(|| {
        let lines = include_str!("../../../docs/clips.tsv").lines().skip(1).map(|line| line.split('\t').collect::<Vec<_>>());
        lines.map(|line| (line[0].parse().expect("a clip"), line)).collect()
    })
}

/// The sheet's rows: clip, name, Japanese, kana, English, Korean, Mandarin, pinyin.
pub fn rows() -> impl Iterator<Item = &'static Vec<&'static str>> {
    lines().values()
}

/// A clip's words in a column, ? where the sheet has none.
fn word(clip: u8, column: usize) -> &'static str {
    let words = lines().get(&clip).and_then(|line| line.get(column)).copied();
    words.filter(|words| !words.is_empty()).unwrap_or("?")
}

/// A language's number, by its letters or as it is.
pub fn language(value: &str) -> Result<u8, String> {
    let is_named = |(letters, name): (&str, &str)| letters.eq_ignore_ascii_case(value) || name.eq_ignore_ascii_case(value);
    let by_letters = (1..).zip(LANGUAGES).find(|(_, language)| is_named(*language)).map(|(number, _)| number);
    by_letters.or_else(|| value.parse().ok()).ok_or("ja, en, ko, zh or 1 to 4 is needed (a number up to 255 to see it refused)".into())
}

/// A language with its number.
pub fn named(language: u8) -> String {
    match LANGUAGES.get(language.wrapping_sub(1) as usize) {
        Some((_, name)) => format!("{language}, {name}"),
        None => format!("{language}, none"),
    }
}

/// Whether a clip is one of those that numbers are made of.
fn is_number(clip: u8) -> bool {
    clip < 60
}

/// A pause stands before such a clip: a player, a limit, what begins a part, a tile, a yaku (docs/CLIPS.md, Pauses).
fn begins_part(clip: u8) -> bool {
    matches!(clip, 60..=63 | 71..=75 | 77..=82 | 84..=94 | 100..=133 | 141..=176)
}

/// The parts of a message: a pause stands also after a yaku.
pub fn parts(clips: &[u8]) -> Vec<&[u8]> {
    clips.chunk_by(|&before, &after| !begins_part(after) && !matches!(before, 141..=176)).collect()
}

/// The words of a part; Japanese and Mandarin, and Korean numbers, without spaces.
pub fn words(language: u8, part: &[u8]) -> String {
    let column = COLUMNS[language as usize - 1].0;
    let mut text = String::new();
    for (at, &clip) in part.iter().enumerate() {
        let space = match language {
            1 | 4 => false,
            3 => at > 0 && !(is_number(clip) && is_number(part[at - 1])),
            _ => at > 0,
        };
        text += if space { " " } else { "" };
        text += word(clip, column);
    }
    text
}

/// The reading of a part in kana or pinyin, where the language has one.
pub fn reading(language: u8, part: &[u8]) -> Option<String> {
    let column = COLUMNS[language as usize - 1].1?;
    Some(part.iter().map(|&clip| word(clip, column)).collect::<Vec<_>>().join(" "))
}
