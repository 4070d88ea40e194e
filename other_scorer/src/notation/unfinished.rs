//! Notation of an unfinished hand: "567m22456p67s chi=234m" (02, S-1).

use super::parse::{meld, Fault};
use super::print::meld as word;
use super::tiles::{plain, text};
use super::typed::{no_tiles, Typed};
use crate::unfinished::{field_faults, Unfinished};

/// The words that are said of a finished hand, or of a player: alone, and before =.
const ALONE: [&str; 7] = ["tsumo", "riichi", "double", "rinshan", "chankan", "last", "first"];
const KEYS: [&str; 5] = ["seat", "ron", "indicator", "dealer", "wind"];

/// Whether a word is said of a finished hand, or of a player.
pub fn is_of_finished(word: &str) -> bool {
    let is_among = |list: &[&str], word: &str| list.iter().any(|known| known.eq_ignore_ascii_case(word));
    word.split_once('=').map_or_else(|| is_among(&ALONE, word), |(key, _)| is_among(&KEYS, key))
}

/// Takes in a word without =.
fn take(typed: &mut Typed, at: usize, word: &str) -> Result<(), String> {
    match no_tiles(word, "a meld, such as chi=234m") {
        Some(why) => Err(why),
        None => typed.take(at, word),
    }
}

/// Why the number of tiles is wrong; a tile too many finishes the hand.
fn number_fault(typed: &Typed, m: usize) -> Option<String> {
    let why = typed.number_fault(m)?;
    let finished = typed.plus.is_none() && typed.concealed.len() == 14 - 3 * m;
    let advice = "a finished hand waits for nothing: leave its winning tile out, or put + before it, as in 234567m345p67s22s+8s";
    Some(if finished { format!("{why}; {advice}") } else { why })
}

/// An unfinished hand from its words: tiles, in any order, and melds; + and the winning tile of a finished one are left out.
pub fn parse(words: &[&str]) -> Result<Unfinished, Fault> {
    let (mut typed, mut melds) = (Typed::default(), Vec::new());
    for (word, text) in words.iter().enumerate() {
        let text: String = text.chars().map(plain).collect();
        let taken = match text.split_once('=') {
            _ if is_of_finished(&text) => Err("an unfinished hand is its tiles and melds, leave the word out".into()),
            Some((key, value)) => meld(key, value).map(|meld| melds.push(meld)),
            None => take(&mut typed, word, &text),
        };
        taken.map_err(|why| Fault { word, why })?;
        if melds.len() > 4 {
            return Err(Fault { word, why: "a fifth meld, at most 4 fit".into() });
        }
    }
    let m = melds.len();
    if let Some(why) = number_fault(&typed, m) {
        return Err(Fault { word: words.len(), why });
    }
    typed.concealed.sort();
    let mut hand = Unfinished { m: m as u8, ..Unfinished::default() };
    hand.melds[..m].copy_from_slice(&melds);
    hand.concealed[..typed.concealed.len()].copy_from_slice(&typed.concealed);
    Ok(hand)
}

/// The notation of an unfinished hand, none if notation cannot say it.
pub fn print(hand: &Unfinished) -> Option<String> {
    let sayable = !field_faults(hand).contains(&true) && hand.concealed().is_sorted();
    let melds = hand.melds().iter().map(word);
    sayable.then(|| [text(hand.concealed())].into_iter().chain(melds).collect::<Vec<_>>().join(" "))
}
