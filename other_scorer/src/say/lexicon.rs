//! The words of numbers, each with its clip, and the clips of a text: at each place the longest word that stands there.

use std::sync::OnceLock;

use super::{Language, LANGUAGES};

/// A word and its clip.
type Entry = (String, u8);

/// The words of a list with spaces, the first with this clip, each next one with the clip after it.
fn listed(first: u8, words: &str) -> Vec<Entry> {
    (first..).zip(words.split_whitespace()).map(|(clip, word)| (word.into(), clip)).collect()
}

/// The words of a language that gives a digit its unit: 0, the digits, then one to nine of ten, a hundred and a thousand; with 1 the unit
/// has a word of its own.
fn with_units(zero: &str, digits: &str, units: [(&str, &str); 3]) -> Vec<Entry> {
    let alone = [zero.to_string()].into_iter().chain(digits.chars().map(String::from));
    let multiples = units.into_iter().flat_map(|(one, unit)| {
        let rest = digits.chars().skip(1).map(move |digit| format!("{digit}{unit}"));
        [one.to_string()].into_iter().chain(rest)
    });
    alone.chain(multiples).zip(0..).collect()
}

/// The words of a language.
fn entries(language: Language) -> Vec<Entry> {
    let parts = match language {
        Language::English => [
            listed(0, "zero one two three four five six seven eight nine ten twenty thirty forty fifty sixty seventy eighty ninety"),
            (19..)
                .zip("one two three four five six seven eight nine".split(' '))
                .map(|(clip, one)| (format!("{one} hundred"), clip))
                .collect(),
            listed(42, "eleven twelve thirteen fourteen fifteen sixteen seventeen eighteen nineteen thousand million billion"),
        ],
        Language::Japanese => {
            let units = [("十", "十"), ("百", "百"), ("千", "千")];
            [with_units("ゼロ", "一二三四五六七八九", units), listed(37, "万 億"), listed(39, "一千")]
        }
        Language::Korean => {
            let units = [("십", "십"), ("백", "백"), ("천", "천")];
            [with_units("영", "일이삼사오육칠팔구", units), listed(37, "만 억"), vec![]]
        }
        Language::Mandarin => {
            let units = [("十", "十"), ("一百", "百"), ("一千", "千")];
            [with_units("零", "一二三四五六七八九", units), listed(37, "万 亿"), [listed(29, "两千"), listed(40, "一十 两")].concat()]
        }
    };
    parts.concat()
}

/// The words of each language, made once.
fn lexicon(language: Language) -> &'static [Entry] {
    static ALL: OnceLock<[Vec<Entry>; 4]> = OnceLock::new();
    &ALL.get_or_init(|| LANGUAGES.map(entries))[language as usize]
}

/// The clips of a text.
pub fn clips(language: Language, text: &str) -> Vec<u8> {
    let (mut left, mut clips) = (text.trim_start(), Vec::new());
    while !left.is_empty() {
        let there = lexicon(language).iter().filter(|(word, _)| left.starts_with(word.as_str()));
        let (word, clip) = there.max_by_key(|(word, _)| word.len()).unwrap_or_else(|| panic!("no clip for {left}"));
        clips.push(*clip);
        left = left[word.len()..].trim_start();
    }
    clips
}
