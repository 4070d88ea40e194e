//! A log as text: one entry a line, # before a comment.

use other_scorer::codec::unpack;
use other_scorer::notation::hex::to_hex;
use other_scorer::notation::{print, seat};
use other_scorer::position::is_ready;
use other_scorer::{multi_ron, Entry};

use crate::both::Core;
use crate::form;
use crate::input;
use crate::names::count;
use crate::refusals::{of_part, sentence};
use crate::words::{Bad, Words};

/// What is said to a word of older texts, or of others.
fn instead(word: &str) -> Option<&'static str> {
    Some(match word {
        "many" => "the word is multi: multi HAND / HAND",
        "feed" => "the word is pao: pao holder=1 feeder=3 yaku=28",
        "reach" | "richi" | "liichi" => "the word is riichi: riichi 1",
        "ron" | "tsumo" | "agari" | "hora" => "the word is win: win HAND, with tsumo or ron= in it",
        "ryuukyoku" | "ryukyoku" | "exhaustive" => "the word is draw: draw 0 2",
        "correction" | "corrected" => "the word is correct: correct draw 0 2",
        _ => return None,
    })
}

/// What is said to an entry's word with its seat behind it, such as riichi=1 or riichi1.
fn joined(word: &str) -> Option<String> {
    let rest = |known: &&'static str| Some((*known, word.strip_prefix(*known)?.trim_start_matches([':', '='])));
    let (known, rest) = ["riichi", "draw", "chombo"].iter().find_map(rest)?;
    rest.starts_with(|sign: char| sign.is_ascii_digit()).then(|| format!("a space is missing: {known} {rest}"))
}

/// A line's first word, without the colon behind it.
fn first_word(words: &Words) -> Option<String> {
    words.texts().first().map(|word| word.trim_end_matches(':').to_ascii_lowercase())
}

/// The words that a line begins with, and two of older texts.
pub const WORDS: [&str; 10] = ["riichi", "win", "draw", "chombo", "multi", "pao", "correct", "bytes", "many", "feed"];

/// The bytes of a log's text, and what of its lines may be meant otherwise; `name` is the file's, for messages. A line in words is one
/// entry; `bytes` may end it with bytes that are none.
pub fn log(core: &mut Core, name: &str, text: &str) -> Result<(Vec<u8>, Vec<String>), Bad> {
    let (mut bytes, mut typed, mut notes) = (Vec::new(), Vec::new(), Vec::new());
    for words in form::lines(name, text).map(Words::spread) {
        notes.extend(input::notes(&words).iter().map(|note| words.placed(note)));
        if first_word(&words).as_deref() == Some("bytes") {
            typed.extend(entry(core, words)?);
        } else if !words.texts().is_empty() {
            if let Some(fault) = fault(core, &typed) {
                return Err(words.bad(0, format!("the bytes before this line are no whole entries: {fault}")));
            }
            let hint = "; a line that begins with bytes may have such bytes";
            bytes.append(&mut typed);
            bytes.extend(one(core, words, hint)?);
        }
    }
    bytes.append(&mut typed);
    Ok((bytes, notes))
}

/// The bytes of a line that is one entry; `hint` stands behind what is wrong with them.
fn one(core: &mut Core, words: Words, hint: &str) -> Result<Vec<u8>, Bad> {
    let part = entry(core, words.clone())?;
    match fault(core, &part).or_else(|| left_over(core, &part)) {
        Some(fault) => Err(words.bad(1, format!("{fault}{hint}"))),
        None => Ok(part),
    }
}

/// The bytes of an entry that is booked after a log, in words that nobody has typed.
pub fn after(core: &mut Core, log: &[u8], line: &str) -> Result<Vec<u8>, Bad> {
    match fault(core, log) {
        Some(fault) => Err(Bad::new(format!("the log's last bytes are no whole entries, so nothing is booked after them: {fault}"))),
        None => one(core, Words::unplaced(line), ""),
    }
}

/// Why bytes are no whole entries.
fn fault(core: &mut Core, bytes: &[u8]) -> Option<String> {
    let mut at = 0;
    loop {
        let next = core.log_next(bytes, at);
        match (next.end, next.refusal) {
            (0, 0) => at += next.length,
            (_, 0) => return None,
            _ => return Some(sentence(14, &of_part(&bytes[at..]))),
        }
    }
}

/// That a line's bytes, which are whole entries, are more than one.
fn left_over(core: &mut Core, bytes: &[u8]) -> Option<String> {
    let length = core.log_next(bytes, 0).length;
    (length < bytes.len()).then(|| format!("the entry has {}, and the line {}", count(length, "byte"), bytes.len()))
}

/// The bytes of a line; none for an empty one.
fn entry(core: &mut Core, mut words: Words) -> Result<Vec<u8>, Bad> {
    let first = first_word(&words);
    let kind = match first.as_deref() {
        None => return Ok(Vec::new()),
        Some(kind @ ("riichi" | "win" | "draw" | "chombo" | "multi" | "pao" | "correct" | "bytes")) => kind,
        Some(other) => {
            let why = "a line begins with riichi, win, draw, chombo, multi, pao, correct or bytes (as=bytes if the file is no text)";
            let told = joined(other).or_else(|| instead(other).map(String::from));
            return Err(words.bad(0, told.unwrap_or(why.into())));
        }
    };
    words.take_first();
    let entry = match kind {
        "riichi" => Entry::Riichi(argument(&words)?),
        "pao" => pao(words)?,
        "correct" => {
            let kind = first_word(&words).unwrap_or_default();
            if !["win", "draw", "chombo", "multi"].contains(&kind.as_str()) {
                return Err(words.bad(0, instead(&kind).unwrap_or("what the result was is needed: win, draw, chombo or multi")));
            }
            words.take_first();
            result(core, &kind, &words)?.as_correction()
        }
        "bytes" => return input::bytes(&words).unwrap_or_else(|| Err(words.bad(0, "hexadecimal digits are needed"))),
        _ => result(core, kind, &words)?,
    };
    Ok(entry.bytes())
}

/// A win, a draw, a chombo or a multiple ron, whose word has been taken.
fn result(core: &mut Core, kind: &str, words: &Words) -> Result<Entry, Bad> {
    Ok(match kind {
        "chombo" => Entry::Chombo(argument(words)?),
        "draw" => Entry::Draw(ready(words)?),
        "win" => Entry::Win(record(core, words)?),
        _ => multi_ron(core, words)?,
    })
}

/// The one argument of a riichi or chombo; 4 to 15 have a place in a log, and are refused by the game.
fn argument(words: &Words) -> Result<u8, Bad> {
    let texts = words.texts();
    let Some(text) = texts.first() else { return Err(words.bad(0, "the seat is missing, 0 to 3")) };
    let text = text.split_once('=').filter(|(key, _)| key.eq_ignore_ascii_case("seat")).map_or(*text, |(_, seat)| seat);
    let refused = input::number(text).filter(|number| (4..=15).contains(number));
    let seat = refused.map_or_else(|| seat(text), Ok).map_err(|why| words.bad(0, format!("{why} (up to 15 to see it refused)")))?;
    match texts.len() {
        1 => Ok(seat),
        _ => Err(words.bad(1, "one seat is enough; a comment begins with #")),
    }
}

/// The four bits of a draw from the seats that are ready.
fn ready(words: &Words) -> Result<u8, Bad> {
    let mut bits = 0;
    for (at, text) in words.texts().iter().enumerate() {
        for text in text.split([',', '、']).filter(|text| !text.is_empty()) {
            let bit = 8 >> seat(text).map_err(|why| words.bad(at, format!("{why}; draw alone: nobody is ready")))?;
            if bits & bit != 0 {
                return Err(words.bad(at, "this seat is named already"));
            }
            bits |= bit;
        }
    }
    Ok(bits)
}

/// The hands of a multiple ron, as for a win, with / between them.
fn multi_ron(core: &mut Core, words: &Words) -> Result<Entry, Bad> {
    if let Some(at) = words.texts().iter().position(|word| ["and", "&"].contains(word)) {
        return Err(words.bad(at, "/ stands between two hands"));
    }
    let parts = words.split("/");
    if let Some(fourth) = parts.get(3) {
        return Err(fourth.bad(0, "a fourth hand, at most 3 fit"));
    }
    let records: Vec<Vec<u8>> = parts.iter().map(|part| record(core, part)).collect::<Result<_, _>>()?;
    Ok(Entry::MultiRon { number: records.len() as u8, records: records.concat() })
}

/// The feeder of a holder's yaku; the holder himself has a place in a log, and is refused by the game.
fn pao(mut words: Words) -> Result<Entry, Bad> {
    let holder = words.take("holder", seat)?;
    let feeder = words.take("feeder", seat)?;
    let yaku = words.take("yaku", |value| match value {
        "28" => Ok(28),
        "29" => Ok(29),
        _ => Err("28 for three dragon triplets or 29 for four wind triplets is needed".to_string()),
    })?;
    if !words.texts().is_empty() {
        return Err(words.bad(0, "one of holder=, feeder= and yaku= is needed"));
    }
    match (holder, feeder, yaku) {
        (Some(holder), Some(feeder), Some(yaku)) => Ok(Entry::Pao { holder, feeder, yaku }),
        _ => Err(words.bad(0, "holder=, feeder= and yaku= are needed, such as holder=1 feeder=3 yaku=28")),
    }
}

/// The record of a win; dealer and wind are the game's.
fn record(core: &mut Core, words: &Words) -> Result<Vec<u8>, Bad> {
    let of_game = |word: &&str| word.starts_with("dealer=") || word.starts_with("wind=");
    match words.texts().iter().position(of_game) {
        Some(at) => Err(words.bad(at, "in a log the game says who deals and which wind blows")),
        None => input::record(core, words),
    }
}

/// The line of an entry.
pub fn line(entry: &Entry) -> String {
    match entry {
        Entry::Riichi(seat) => format!("riichi {seat}"),
        Entry::Chombo(seat) => format!("chombo {seat}"),
        Entry::Pao { holder, feeder, yaku } => format!("pao holder={holder} feeder={feeder} yaku={yaku}"),
        Entry::Draw(bits) => {
            let seats = (0..4).filter(|&seat| is_ready(*bits, seat)).map(|seat| format!(" {seat}"));
            format!("draw{}", seats.collect::<String>())
        }
        Entry::Win(record) => format!("win {}", hand(record)),
        Entry::MultiRon { number, records } => {
            let hands: Vec<String> = multi_ron::split(*number, records).into_iter().map(hand).collect();
            format!("multi {}", hands.join(" / "))
        }
        Entry::Correction(new) => format!("correct {}", line(new)),
    }
}

/// A record in notation if that gives this very record, else in hexadecimal.
pub fn hand(record: &[u8]) -> String {
    let notation = unpack(record).ok().filter(|(_, padding)| !padding).and_then(|(hand, _)| print(&hand));
    notation.unwrap_or_else(|| to_hex(record))
}
