//! What the handset says (our own paper, `What the handset says`): messages as lists of clips. A number is spelled as people write it,
//! and its words are looked up; the rest is said word by word.

pub mod calls;
pub mod hear;
pub mod lexicon;
pub mod messages;
pub mod spell;
pub mod word;

/// The languages of the label: "Press 1 for Japanese, 2 for English, 3 for Korean, 4 for Mandarin".
#[derive(Clone, Copy, Debug, PartialEq, Eq)]
pub enum Language {
    Japanese,
    English,
    Korean,
    Mandarin,
}

/// The languages in the label's order.
pub const LANGUAGES: [Language; 4] = [Language::Japanese, Language::English, Language::Korean, Language::Mandarin];

impl Language {
    /// The language of a key 1 to 4.
    pub fn of(key: u8) -> Option<Language> {
        LANGUAGES.get((key as usize).checked_sub(1)?).copied()
    }
}

/// The clips of a number.
pub fn number(language: Language, number: u32) -> Vec<u8> {
    lexicon::clips(language, &spell::spelled(language, number))
}
