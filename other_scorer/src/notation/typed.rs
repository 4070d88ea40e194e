//! Tiles as they are typed, in one word or more: concealed ones, then + and the winning tile; and what is said to a word that is none.

use super::tiles::tiles;

/// What the words have given so far.
#[derive(Default)]
pub struct Typed {
    pub concealed: Vec<u8>,
    /// The place of the word with +.
    pub plus: Option<usize>,
    pub winning: Option<u8>,
}

/// The words that stand before =.
const KEYS: [&str; 9] = ["seat", "ron", "indicator", "dealer", "wind", "chi", "pon", "kan", "ankan"];

/// What is said to a word that others use, alone or before =, of what is not here.
pub fn not_here(word: &str) -> Option<&'static str> {
    Some(match word {
        "ura" | "uradora" | "ura-dora" => "there is no ura-dora in these rules, leave the word out",
        "kandora" | "kan-dora" => "there is no kan-dora in these rules, leave the word out",
        "aka" | "akadora" | "aka-dora" | "red" | "red5" => "there are no red fives here, leave the word out",
        "honba" | "counter" | "counters" | "stick" | "sticks" => "counters and sticks are the game's: use tester tally",
        "round" | "roundwind" => "the word is wind=, such as wind=S",
        "seatwind" => "the seat's wind follows from seat= and dealer=, leave the word out",
        _ => return None,
    })
}

/// What is said to a word that others use: the word here, or that there is none.
fn instead(word: &str) -> Option<&'static str> {
    Some(match word {
        "reach" | "richi" | "liichi" => "the word is riichi",
        "ippatsu" => "there is no ippatsu in these rules, leave the word out",
        "daburi" | "double-riichi" | "double-reach" => "the word is double",
        "haitei" | "houtei" | "hotei" => "the word is last",
        "tenhou" | "tenho" | "chiihou" | "chiho" => "the word is first",
        "pon" | "chi" | "kan" | "ankan" => "the tiles are missing, such as pon=222m",
        "indicator" => "the tile is missing, such as indicator=4m",
        "dealer" => "the seat is missing, such as dealer=1",
        "wind" => "the wind is missing, such as wind=S",
        "ron" => "whose discard is missing, such as ron=3",
        "seat" => "the number is missing, such as seat=1",
        "discards" => "the tiles are missing, such as discards=N8s4m",
        "/" => "/ stands between the hands of a log's multiple ron, whose word is multi",
        "0" | "1" | "2" | "3" => "a number alone says nothing: the winner is seat=, whose discard it was ron=",
        _ if word.starts_with(['(', '[', '{', '<']) => "a meld is written without brackets, as chi=234m, pon=, kan= or ankan=",
        _ => return not_here(word),
    })
}

/// What is said to a word that begins with one that stands before =, such as seat1 or seat:1.
fn without_sign(word: &str) -> Option<String> {
    let is_key = |key: &&&str| word.get(..key.len()).is_some_and(|start| start.eq_ignore_ascii_case(key));
    let key = KEYS.iter().find(is_key)?;
    let value = word[key.len()..].trim_start_matches(':');
    let is_value = value.parse::<u8>().is_ok() || tiles(value).is_ok();
    (is_value && !value.is_empty()).then(|| format!("= is missing, write {key}={value}"))
}

/// What is said to a word without = that is no tiles; `known` are the words that may stand there. Nothing is said to tiles.
pub fn no_tiles(word: &str, known: &str) -> Option<String> {
    let small = word.to_ascii_lowercase();
    let is_word = word.len() > 1 && word.chars().all(char::is_alphabetic);
    match instead(&small) {
        Some(why) => Some(why.into()),
        None if tiles(word).is_ok() || word.contains('+') => None,
        None => without_sign(word).or_else(|| is_word.then(|| format!("neither tiles nor {known}"))),
    }
}

/// One tile.
pub fn one(text: &str) -> Result<u8, String> {
    match tiles(text)?[..] {
        [tile] => Ok(tile),
        ref list => Err(format!("one tile is needed, {} given", list.len())),
    }
}

impl Typed {
    /// Takes in the tiles of the word at a place.
    pub fn take(&mut self, at: usize, word: &str) -> Result<(), String> {
        let winning = match (word.split_once('+'), self.plus) {
            (Some((before, after)), None) => {
                self.concealed.extend(tiles(before)?);
                self.plus = Some(at);
                after
            }
            (None, None) => {
                self.concealed.extend(tiles(word)?);
                return Ok(());
            }
            (Some(_), Some(_)) => return Err("a second +; between two hands of a multiple ron stands /".into()),
            (None, Some(_)) => word,
        };
        if winning.is_empty() {
            return Ok(());
        }
        if self.winning.is_some() {
            return Err("the winning tile is the last one, after +".into());
        }
        self.winning = Some(one(winning)?);
        Ok(())
    }

    /// Why there are too few or too many concealed tiles beside so many melds.
    pub fn number_fault(&self, m: usize) -> Option<String> {
        let (given, needed) = (self.concealed.len(), 13 - 3 * m);
        let before = if self.plus.is_some() { " before +" } else { "" };
        let melds = if m == 1 { "1 meld".to_string() } else { format!("{m} melds") };
        let tiles = if given == 1 { "tile" } else { "tiles" };
        (given != needed).then(|| format!("{given} {tiles}{before}, with {melds} {needed} are needed"))
    }
}
