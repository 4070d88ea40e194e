//! The words of a message besides those of numbers, and their clips (the paper's table of clips).

use super::{number, Language};

/// A word of a message.
#[derive(Clone, Copy, Debug, PartialEq, Eq)]
pub enum Word {
    /// A player by the seat's wind, 0 for East.
    Player(u8),
    Ron,
    Tsumo,
    Pays,
    Gets,
    Points,
    Han,
    Fu,
    Mangan,
    Haneman,
    Baiman,
    Sanbaiman,
    Yakuman,
    Minus,
    Sticks,
    Counters,
    WaitsFor,
    WaitsForNothing,
    Furiten,
    Ready,
    FromReady,
    /// An item of fu, 0 the base to 9 the rounding.
    Item(u8),
    InAll,
    Tile(u8),
    Yaku(u8),
    Refusal(u8),
    Number(u32),
}

/// The clips of a word: one, but of a number as many as it has.
fn clips_of(language: Language, word: Word) -> Vec<u8> {
    let clip = match word {
        Word::Number(n) => return number(language, n),
        Word::Player(wind) => 60 + wind,
        Word::Ron => 64,
        Word::Tsumo => 65,
        Word::Pays => 66,
        Word::Gets => 67,
        Word::Points => 68,
        Word::Han => 69,
        Word::Fu => 70,
        Word::Mangan => 71,
        Word::Haneman => 72,
        Word::Baiman => 73,
        Word::Sanbaiman => 74,
        Word::Yakuman => 75,
        Word::Minus => 76,
        Word::Sticks => 77,
        Word::Counters => 78,
        Word::WaitsFor => 79,
        Word::WaitsForNothing => 80,
        Word::Furiten => 81,
        Word::Ready => 82,
        Word::FromReady => 83,
        Word::Item(item) => 84 + item,
        Word::InAll => 94,
        Word::Tile(kind) => 100 + kind,
        Word::Yaku(n) => 140 + n,
        Word::Refusal(n) => 200 + n,
    };
    vec![clip]
}

/// The clips of words in order.
pub fn clips(language: Language, words: &[Word]) -> Vec<u8> {
    words.iter().flat_map(|&word| clips_of(language, word)).collect()
}
