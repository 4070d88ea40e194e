//! What the words give: a record by notation or hexadecimal, or a log by file or hexadecimal.

use std::fs;
use std::io::{self, ErrorKind, Read};
use std::path::Path;

use other_scorer::codec::{pack, unpack};
use other_scorer::notation::hex::{from_hex, is_hex};
use other_scorer::notation::{doubtful, parse, seat, tiles};

use crate::both::Core;
use crate::form::{self, Form};
use crate::meant::is_quoted;
use crate::text;
use crate::words::{Bad, Words};

/// A number as it is written: no sign and no zero before it.
pub fn number(value: &str) -> Option<u8> {
    value.parse().ok().filter(|number: &u8| number.to_string() == value)
}

/// A number, or the wind with that number, 0 for East.
fn number_or_wind(value: &str) -> Option<u8> {
    seat(value).ok().or_else(|| number(value))
}

/// The dealer and round wind, seat 0 and East where they are not given.
pub fn table(words: &mut Words) -> Result<(u8, u8), Bad> {
    let mut take = |key: &str, usual: &str| {
        let why = format!("{usual} is needed (a number up to 255 to see it refused)");
        words.take(key, |value| number_or_wind(value).ok_or(why.clone()))
    };
    let dealer = take("dealer", "a seat 0 to 3, or E S W N by the first deal's winds,")?;
    let wind = take("wind", "E, S, 0 or 1")?;
    Ok((dealer.unwrap_or(0), wind.unwrap_or(0)))
}

/// The bytes of words that are all hexadecimal digits; none if they are not.
pub fn bytes(words: &Words) -> Option<Result<Vec<u8>, Bad>> {
    let texts = words.texts();
    let all = !texts.is_empty() && texts.iter().all(|word| is_hex(word));
    let word = |(at, word): (usize, &&str)| {
        let left_over = |_| words.bad(at, "two hexadecimal digits make a byte, one is left over");
        from_hex(word).map_err(left_over)
    };
    all.then(|| texts.iter().enumerate().map(word).collect::<Result<Vec<_>, _>>().map(|parts| parts.concat()))
}

/// Refuses words beside hexadecimal digits that say what those say already.
pub fn bytes_alone(words: &Words, why: &str) -> Result<(), Bad> {
    let texts = words.texts();
    let is_bytes = |word: &&&str| is_hex(word) && tiles(word).is_err();
    let has_tiles = |word: &&str| !word.contains('=') && word.contains(|sign: char| sign.is_ascii_digit()) && !is_hex(word);
    match (texts.first().filter(is_bytes), texts.iter().position(|word| !is_hex(word))) {
        (Some(_), Some(_)) if texts.iter().any(has_tiles) => Ok(()),
        (Some(first), Some(1)) if is_number(first) => Err(words.bad(0, NO_SUIT)),
        (Some(_), Some(at)) => Err(words.bad(at, why)),
        _ => Ok(()),
    }
}

/// Of words with tiles, what may be meant otherwise: a suit letter that may be missing.
pub fn notes(words: &Words) -> Vec<String> {
    let tiles_of = |word: &&str| word.split('+').next().filter(|tiles| !tiles.contains('=') && !is_hex(tiles)).map(String::from);
    let said = |(stretch, first): (String, String)| {
        let letter = stretch.chars().last().unwrap_or_default();
        let number = stretch.chars().count() - 1;
        format!("{stretch} is read as {number} tiles, all {letter}; if {first} is of another suit, its letter is missing after {first}")
    };
    let digits = has_no_suit(words).then(|| NO_SUIT.to_string());
    words.texts().iter().filter_map(tiles_of).filter_map(|tiles| doubtful(&tiles)).map(said).chain(digits).collect()
}

/// What is said where tiles may be meant, and nothing but digits is there.
const NO_SUIT: &str = "digits alone are bytes, two digits for each; tiles have a suit m, p, s or z behind their digits";

/// Whether a word is made of digits 0 to 9.
fn is_number(word: &str) -> bool {
    !word.is_empty() && word.bytes().all(|sign| sign.is_ascii_digit())
}

/// Whether all words are made of digits 0 to 9, and are no record.
fn has_no_suit(words: &Words) -> bool {
    let texts = words.texts().concat();
    is_number(&texts) && from_hex(&texts).is_ok_and(|bytes| unpack(&bytes).is_err())
}

/// The bytes of a hand, where words are all hexadecimal digits.
pub fn hand_bytes(words: &Words) -> Option<Result<Vec<u8>, Bad>> {
    let is_number = is_number(&words.texts().concat());
    bytes(words).map(|bytes| bytes.map_err(|bad| if is_number { words.bad(0, NO_SUIT) } else { bad }))
}

/// The record of notation or of hexadecimal digits.
pub fn record(core: &mut Core, words: &Words) -> Result<Vec<u8>, Bad> {
    words.no_options()?;
    bytes_alone(words, "the record's bytes say this already, leave the word out (dealer= and wind= may stand beside them)")?;
    if let Some(bytes) = hand_bytes(words) {
        return bytes;
    }
    let texts = words.texts();
    if let [word] = texts[..] {
        if !word.contains('+') {
            return Err(words.bad(0, "neither tiles with + before the winning one nor hexadecimal digits"));
        }
    }
    if texts.is_empty() {
        return Err(words.bad(0, "no hand, such as 234567m345p67s22s+8s seat=1 ron=3"));
    }
    let hand = parse(&texts).map_err(|fault| words.bad(fault.word, fault.why))?;
    let (written, record) = core.write(&hand);
    Ok(match written.refusal {
        0 => record[..written.len].to_vec(),
        _ => pack(&hand),
    })
}

/// A log, whether it was given as text, in words as what a file was read, and what of it may be meant otherwise.
pub struct Log {
    pub bytes: Vec<u8>,
    pub from_text: bool,
    pub read: Option<String>,
    pub notes: Vec<String>,
}

/// Why a file cannot be read or written.
pub fn told(error: &io::Error) -> String {
    match error.kind() {
        ErrorKind::NotFound => "there is no such file or folder".into(),
        ErrorKind::IsADirectory => "this is a folder and no file".into(),
        ErrorKind::PermissionDenied => "you may not read or write this file".into(),
        _ => error.to_string(),
    }
}

/// The form that as= names; --bytes is as=bytes.
fn named_form(words: &mut Words) -> Result<Option<Form>, Bad> {
    let raw = words.take_flag("--bytes");
    match (words.take("as", Form::named)?, raw) {
        (Some(form), true) if form != Form::Bytes => {
            Err(Bad::new(format!("--bytes is as=bytes, and as={} says another thing", form.name())))
        }
        (named, raw) => Ok(named.or(raw.then_some(Form::Bytes))),
    }
}

/// The log of a file, of standard input (-), or of hexadecimal digits; as= says what a file holds, or its content does. called= is what
/// messages call standard input.
pub fn log(core: &mut Core, mut words: Words) -> Result<Log, Bad> {
    let named = named_form(&mut words)?;
    let called = words.take("called", |name| Ok(name.to_string()))?;
    words.no_options()?;
    let texts = words.texts();
    let (name, content) = match texts[..] {
        [] => return Err(words.bad(0, "no log: a file, - for standard input, or hexadecimal digits")),
        ["-"] => {
            let mut content = Vec::new();
            io::stdin().read_to_end(&mut content).map_err(|error| words.bad(0, told(&error)))?;
            (called.as_deref().unwrap_or("standard input"), content)
        }
        [file, option @ ("words" | "csv" | "say" | "show" | "plain"), ..] if Path::new(file).exists() => {
            return Err(words.bad(1, format!("an option has two hyphens, --{option}")));
        }
        [file, word, ..] if Path::new(file).exists() => return Err(words.bad(1, beside_file(word))),
        [file] if Path::new(file).exists() => (file, fs::read(file).map_err(|error| words.bad(0, told(&error)))?),
        _ => {
            let notes = looks_like_name(&texts).into_iter().collect();
            return Ok(Log { bytes: typed(&words, named)?, from_text: false, read: None, notes });
        }
    };
    let form = named.unwrap_or_else(|| Form::of(&content));
    let read = format!("{name}: read as {}", form.name()).trim_start_matches(": ").replace(char::is_control, "?");
    let (bytes, notes) = match form {
        Form::Text => text::log(core, name, form::utf8(name, &content)?)?,
        Form::Hex => (digits(name, form::utf8(name, &content)?)?, Vec::new()),
        Form::Bytes => (content, Vec::new()),
    };
    Ok(Log { bytes, from_text: form == Form::Text, read: Some(read), notes })
}

/// What is said to a word beside a file.
fn beside_file(word: &str) -> String {
    match word.split_once('=') {
        None if word == "to" => "the file to write is missing, such as to=evening.bin".into(),
        Some(("to", file)) => format!("to= is an option of tester log; write > {file} to keep what is printed"),
        _ => "one file is enough".into(),
    }
}

/// What is said first of one word of digits, which may be meant as the name of a file, such as a date.
fn looks_like_name(texts: &[&str]) -> Option<String> {
    let is_name = matches!(texts, [word] if word.len() > 2 && is_number(word));
    is_name.then(|| format!("no file of the name {}: read as hex", texts[0]))
}

/// The bytes of digits among the words of a command.
fn typed(words: &Words, named: Option<Form>) -> Result<Vec<u8>, Bad> {
    let texts = words.texts();
    let other = texts.iter().position(|word| !is_hex(word)).unwrap_or(0);
    match (named, bytes(&words.clone().spread())) {
        (None | Some(Form::Hex), Some(bytes)) => bytes,
        (Some(form), Some(_)) => Err(words.bad(0, format!("no file of this name, and as={} is said of a file", form.name()))),
        (_, None) if is_quoted(texts[0]) => Err(words.bad(0, "no file of this name; leave the quotation marks out")),
        (_, None) => Err(words.bad(other, "no file of this name, nor hexadecimal digits")),
    }
}

/// The bytes of a file of digits; # before a comment.
fn digits(name: &str, text: &str) -> Result<Vec<u8>, Bad> {
    let mut all = Vec::new();
    for words in form::lines(name, text) {
        let other = words.texts().iter().position(|word| !is_hex(word));
        match (bytes(&words), other) {
            (Some(bytes), _) => all.extend(bytes?),
            (None, Some(at)) => return Err(words.bad(at, "no hexadecimal digits")),
            (None, None) => {}
        }
    }
    Ok(all)
}
