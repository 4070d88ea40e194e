//! From notation to a hand.

use super::tiles::{plain, tiles};
use super::typed::{no_tiles, not_here, one, Typed};
use crate::record::*;
use crate::tiles::{starts_run, EAST};

/// The indicator when none is given: North (01, Table of hands).
const NORTH: u8 = 30;

/// The winds by their names.
const WINDS: [&str; 4] = ["east", "south", "west", "north"];

/// The words that stand alone.
pub const WORDS: &str = "one of the words tsumo, riichi, double, rinshan, chankan, last and first";

/// What is wrong with notation: the word's place from 0, the number of words where one is missing; and why.
#[derive(Clone, Debug, PartialEq, Eq)]
pub struct Fault {
    pub word: usize,
    pub why: String,
}

/// A value with the place of the word that gave it.
type Given<T> = Option<(usize, T)>;

/// What the words have given so far.
#[derive(Default)]
struct Draft {
    typed: Typed,
    melds: Vec<Meld>,
    seat: Given<u8>,
    win: Given<(u8, u8)>,
    riichi: Given<u8>,
    situation: Given<u8>,
    indicator: Given<u8>,
}

/// Fills a field once.
fn set<T>(field: &mut Given<T>, at: usize, value: T) -> Result<(), String> {
    match field {
        None => {
            *field = Some((at, value));
            Ok(())
        }
        Some(_) => Err("an earlier word has said this already".into()),
    }
}

/// A seat by its number, one digit 0 to 3, or by its wind in the first deal, a tile or its name.
pub fn seat(text: &str) -> Result<u8, String> {
    let is_digit = |sign: u8| (b'0'..=b'3').contains(&sign);
    let by_number = text.bytes().next().filter(|&sign| text.len() == 1 && is_digit(sign)).map(|sign| sign - b'0');
    let by_name = (0..).zip(WINDS).find(|(_, name)| name.eq_ignore_ascii_case(text)).map(|(seat, _)| seat);
    let by_wind = || tiles(text).ok().filter(|list| list.len() == 1).and_then(|list| list[0].checked_sub(EAST));
    let seat = by_number.or(by_name).or_else(by_wind).filter(|&seat| seat <= 3);
    let several = text.len() > 1 && text.bytes().all(is_digit);
    let why = match text {
        _ if text.contains('#') => "a space is missing before #",
        _ if text.contains(['=', ',']) => "a space is missing before the next word",
        _ if several => "a seat is one digit; put spaces between seats",
        _ => "a seat is 0, 1, 2 or 3, or E S W N by the first deal's winds",
    };
    seat.ok_or(why.into())
}

/// The kind of a meld by its word.
pub fn meld_kind(key: &str) -> Result<u8, String> {
    match key.to_ascii_lowercase().as_str() {
        "chi" => Ok(CHI),
        "pon" => Ok(PON),
        "kan" => Ok(OPEN_KAN),
        "ankan" => Ok(CLOSED_KAN),
        "pong" | "pung" => Err("the word is pon, such as pon=222m".into()),
        "chii" | "chow" => Err("the word is chi, such as chi=234m".into()),
        "kong" | "minkan" | "daiminkan" => Err("the word is kan, such as kan=EEEE, or ankan for a closed one".into()),
        "dora" => Err("the tile turned up is indicator=, dora is the next one".into()),
        "tsumo" => Err("tsumo stands alone, the winner is seat=".into()),
        "riichi" | "double" => Err(format!("{key} stands alone, the winner is seat=")),
        "reach" => Err("the word is riichi, and stands alone".into()),
        "winner" => Err("the word is seat, such as seat=1".into()),
        "from" | "discarder" => Err("the word is ron, such as ron=3".into()),
        "discard" => Err("the word is discards, such as discards=N8s4m".into()),
        "discards" => Err("there are no discards here, leave the word out".into()),
        small => {
            Err(not_here(small).map_or_else(|| format!("{key}= is no option here; melds are chi=, pon=, kan= and ankan="), String::from))
        }
    }
}

/// A meld from its word and its tiles in any order: "chi" and "234m".
pub fn meld(key: &str, text: &str) -> Result<Meld, String> {
    let kind = meld_kind(key)?;
    let mut list = tiles(text)?;
    list.sort();
    let tile = list.first().copied().unwrap_or(0);
    let meld = Meld { kind, tile };
    if (kind == CHI && !starts_run(tile)) || list != meld.tiles() {
        let needed = match kind {
            CHI => "three neighbours of one suit, such as 234m",
            PON => "three equal tiles, such as 555p",
            _ => "four equal tiles, such as EEEE",
        };
        let spaces = if list.len() < 3 { "; behind = tiles have commas or nothing between them" } else { "" };
        return Err(format!("{needed}, are needed{spaces}"));
    }
    Ok(meld)
}

impl Draft {
    /// Takes in the word at a place.
    fn take(&mut self, at: usize, word: &str) -> Result<(), String> {
        match word.split_once('=') {
            Some((key, value)) => self.take_pair(at, key, value),
            None => self.take_alone(at, word),
        }
    }

    /// A word with a value.
    fn take_pair(&mut self, at: usize, key: &str, value: &str) -> Result<(), String> {
        match key.to_ascii_lowercase().as_str() {
            "seat" => return set(&mut self.seat, at, seat(value)?),
            "ron" => return set(&mut self.win, at, (RON, seat(value)?)),
            "indicator" => return set(&mut self.indicator, at, one(value)?),
            _ => meld_kind(key)?,
        };
        if self.melds.len() == 4 {
            return Err("a fifth meld, at most 4 fit".into());
        }
        self.melds.push(meld(key, value)?);
        Ok(())
    }

    /// The situation, once.
    fn set_situation(&mut self, at: usize, situation: u8) -> Result<(), String> {
        set(&mut self.situation, at, situation).map_err(|why| format!("{why}: one of rinshan, chankan, last and first fits"))
    }

    /// A word alone: an option, or tiles.
    fn take_alone(&mut self, at: usize, word: &str) -> Result<(), String> {
        match word.to_ascii_lowercase().as_str() {
            "tsumo" => set(&mut self.win, at, (TSUMO, 0)),
            "riichi" => set(&mut self.riichi, at, 1),
            "double" => set(&mut self.riichi, at, 2),
            "rinshan" => self.set_situation(at, RINSHAN),
            "chankan" => self.set_situation(at, CHANKAN),
            "last" => self.set_situation(at, LAST_TILE),
            "first" => self.set_situation(at, FIRST_TURN),
            _ => match no_tiles(word, WORDS) {
                Some(why) => Err(why),
                None => self.typed.take(at, word),
            },
        }
    }

    /// The hand, once all words are in; the error has the place of the word it is about, none if one is missing.
    fn hand(mut self) -> Result<Hand, (Option<usize>, String)> {
        let missing = |what: &str| (None, what.to_string());
        let plus = self.typed.plus.ok_or(missing("no winning tile: put + before it, as in 234567m345p67s22s+8s"))?;
        let winning = self.typed.winning.ok_or((Some(plus), "no winning tile after +".to_string()))?;
        let m = self.melds.len();
        if let Some(why) = self.typed.number_fault(m) {
            return Err((Some(plus), why));
        }
        let (_, winner) = self.seat.ok_or(missing("the winner is missing, such as seat=1"))?;
        let (_, (how, discarder)) = self.win.ok_or(missing("tsumo or ron=, such as ron=3, is missing"))?;
        let or = |field: Given<u8>, usual| field.map_or(usual, |(_, value)| value);
        let mut hand = Hand {
            how,
            winner,
            discarder,
            riichi: or(self.riichi, 0),
            situation: or(self.situation, ORDINARY),
            indicator: or(self.indicator, NORTH),
            winning,
            m: m as u8,
            ..Hand::default()
        };
        let concealed = &mut self.typed.concealed;
        concealed.sort();
        hand.melds[..m].copy_from_slice(&self.melds);
        hand.concealed[..concealed.len()].copy_from_slice(concealed);
        Ok(hand)
    }
}

/// A hand from the words of its notation; what a record can hold is left to Read (01, Read).
pub fn parse(words: &[&str]) -> Result<Hand, Fault> {
    let mut draft = Draft::default();
    for (word, text) in words.iter().enumerate() {
        let text: String = text.chars().map(plain).collect();
        draft.take(word, &text).map_err(|why| Fault { word, why })?;
    }
    draft.hand().map_err(|(word, why)| Fault { word: word.unwrap_or(words.len()), why })
}
