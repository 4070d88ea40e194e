//! The words of a command or of a line of text, with their places, and what is said about a bad one.

use std::ffi::OsString;
use std::fmt::{self, Display};
use std::str::FromStr;

use other_scorer::notation::hex::is_hex;
use other_scorer::notation::tiles;

use crate::meant::{add, meant, with_hyphens};

/// What stands before the words that a person typed, if a program asks: they alone are counted.
const TYPED: &str = "--typed";

/// Bad input in one line.
#[derive(Debug)]
pub struct Bad(String);

impl Bad {
    /// What is wrong; signs that are no letters of a line are left out.
    pub fn new(why: impl Into<String>) -> Bad {
        Bad(why.into().replace(char::is_control, "?"))
    }
}

impl Bad {
    /// What is wrong, with more behind it.
    pub fn and(self, more: Option<String>) -> Bad {
        Bad(self.0 + &more.map_or(String::new(), |more| format!("; {more}")))
    }
}

impl fmt::Display for Bad {
    fn fmt(&self, f: &mut fmt::Formatter) -> fmt::Result {
        f.write_str(&self.0)
    }
}

/// Words still to be understood, each with its place from 1; 0 is no place.
#[derive(Clone)]
pub struct Words {
    source: String,
    list: Vec<(usize, String)>,
    last: Option<(usize, String)>,
}

impl Words {
    /// The words of a command; the command itself is word 1.
    pub fn of_command(arguments: impl Iterator<Item = OsString>) -> Words {
        let all: Vec<String> = arguments.map(|word| word.to_string_lossy().into_owned()).collect();
        let Some(at) = all.iter().position(|word| word == TYPED) else {
            return Words::of(String::new(), all.into_iter().map(with_hyphens));
        };
        let mut words = Words::of(String::new(), all[at + 1..].iter().cloned());
        words.list.splice(0..0, all[..at].iter().map(|word| (0, word.clone())));
        words
    }

    /// The words of a line that nobody has typed: none has a place.
    pub fn unplaced(line: &str) -> Words {
        let mut words = Words::of_line(String::new(), line);
        words.list.iter_mut().chain(&mut words.last).for_each(|(place, _)| *place = 0);
        words
    }

    /// The words of a line of text up to a comment; the source names file and line.
    pub fn of_line(source: String, line: &str) -> Words {
        let words = line.split_whitespace().take_while(|word| !word.starts_with('#'));
        Words::of(source, words.map(String::from))
    }

    fn of(source: String, words: impl Iterator<Item = String>) -> Words {
        let list: Vec<(usize, String)> = (1..).zip(words).collect();
        let last = list.last().cloned();
        Words { source, list, last }
    }

    /// The words as they are meant, each word with spaces as several. The name of a file, behind --wav, stays as it is.
    pub fn spread(mut self) -> Words {
        let (mut list, mut is_file) = (Vec::new(), false);
        for (place, text) in self.list {
            match std::mem::replace(&mut is_file, text == "--wav") || text.starts_with("--wav=") {
                true => list.push((place, text)),
                false => text.split_whitespace().map(meant).for_each(|word| add(&mut list, place, &word)),
            }
        }
        self.list = list;
        self
    }

    /// The words left.
    pub fn texts(&self) -> Vec<&str> {
        self.list.iter().map(|(_, text)| text.as_str()).collect()
    }

    /// The words left, a sign in them as a word by itself.
    fn apart(&self, sign: &str) -> Vec<(usize, String)> {
        let pieces = |(place, text): &(usize, String)| {
            let spaced = text.replace(sign, &format!(" {sign} "));
            spaced.split_whitespace().map(|piece| (*place, piece.to_string())).collect::<Vec<_>>()
        };
        self.list.iter().flat_map(pieces).collect()
    }

    /// The words left in parts, between words that are this one.
    pub fn split(&self, at: &str) -> Vec<Words> {
        let mut parts = vec![Words { source: self.source.clone(), list: Vec::new(), last: self.last.clone() }];
        for word in &self.apart(at) {
            let part = parts.last_mut().expect("a part");
            if word.1 != at || part.list.is_empty() {
                part.last = Some(word.clone());
            }
            if word.1 == at {
                parts.push(Words { source: self.source.clone(), list: Vec::new(), last: Some(word.clone()) });
            } else {
                part.list.push(word.clone());
            }
        }
        parts
    }

    /// Takes the first word.
    pub fn take_first(&mut self) -> Option<String> {
        (!self.list.is_empty()).then(|| self.list.remove(0).1)
    }

    /// Takes the words that a test picks.
    pub fn take_all(&mut self, is_meant: impl Fn(&str) -> bool) -> Vec<String> {
        let (taken, left): (Vec<_>, Vec<_>) = std::mem::take(&mut self.list).into_iter().partition(|(_, text)| is_meant(text));
        self.list = left;
        taken.into_iter().map(|(_, text)| text).collect()
    }

    /// Takes a word such as --plain, in small letters or capitals; whether it is there.
    pub fn take_flag(&mut self, flag: &str) -> bool {
        !self.take_all(|text| text.eq_ignore_ascii_case(flag)).is_empty()
    }

    /// Takes a word such as --wav and the word after it, or behind its =.
    pub fn take_after(&mut self, flag: &str, missing: &str) -> Result<Option<String>, Bad> {
        if let Some(value) = self.take(flag, |value| Ok(value.to_string()))? {
            return Ok(Some(value));
        }
        let Some(at) = self.list.iter().position(|(_, text)| text == flag) else { return Ok(None) };
        if at + 1 == self.list.len() {
            return Err(self.bad(at + 1, missing));
        }
        self.list.remove(at);
        Ok(Some(self.list.remove(at).1))
    }

    /// Where a word KEY=VALUE stands among those left.
    fn at_key(&self, key: &str) -> Option<usize> {
        self.list.iter().position(|(_, text)| text.split_once('=').is_some_and(|(name, _)| name.eq_ignore_ascii_case(key)))
    }

    /// Takes a word KEY=VALUE and understands its value.
    pub fn take<T>(&mut self, key: &str, understand: impl Fn(&str) -> Result<T, String>) -> Result<Option<T>, Bad> {
        let mut found = None;
        while let Some(at) = self.at_key(key) {
            let value = &self.list[at].1[key.len() + 1..];
            match (understand(value), found) {
                (Ok(_), Some(_)) => return Err(self.bad(at, "an earlier word has said this already")),
                (Ok(value), None) => found = Some(value),
                (Err(why), _) => return Err(self.bad(at, why)),
            }
            self.list.remove(at);
        }
        Ok(found)
    }

    /// Joins the words of hexadecimal digits behind a word KEY=HEX to it.
    pub fn join_digits(&mut self, key: &str) {
        let Some(at) = self.at_key(key) else { return };
        let is_digits = |value: &str| value.is_empty() || is_hex(value);
        while is_digits(&self.list[at].1[key.len() + 1..]) && self.list.get(at + 1).is_some_and(|(_, next)| is_hex(next)) {
            let (_, next) = self.list.remove(at + 1);
            self.list[at].1 += &next;
        }
    }

    /// Takes a word KEY=NUMBER, with commas in it or without; `most` is the largest that fits.
    pub fn take_number<T: FromStr + Display>(&mut self, key: &str, range: &str, most: T) -> Result<Option<T>, Bad> {
        self.take(key, |value| {
            let digits = value.replace(',', "");
            let is_large = !digits.is_empty() && digits.bytes().all(|sign| sign.is_ascii_digit());
            let bound = if is_large { format!(", at most {most}") } else { String::new() };
            digits.parse().map_err(|_| format!("a number {range} is needed{bound}"))
        })
    }

    /// What is said where tiles stand before a word KEY=TILES, and right behind it as if they were its own.
    pub fn goes_on(&self, key: &str) -> Option<String> {
        let is_tiles = |(_, word): &(usize, String)| tiles(word).is_ok();
        let at = self.at_key(key).filter(|&at| self.list[..at].iter().any(is_tiles))?;
        let (_, next) = self.list.get(at + 1).filter(|next| is_tiles(next))?;
        Some(format!("behind = tiles have commas or nothing between them: {},{next}", self.list[at].1))
    }

    /// A text with the source of the words before it.
    pub fn placed(&self, text: &str) -> String {
        if self.source.is_empty() {
            text.into()
        } else {
            format!("{}: {text}", self.source)
        }
    }

    /// Refuses unknown options among the words left.
    pub fn no_options(&self) -> Result<(), Bad> {
        match self.list.iter().position(|(_, text)| text.starts_with('-') && text != "-") {
            Some(at) if self.list[at].1.starts_with("--") => Err(self.bad(at, "no option here; --help lists them")),
            Some(at) => Err(self.bad(at, "an option has two hyphens, such as --plain; --help lists them")),
            None => Ok(()),
        }
    }

    /// What is wrong with the word at an index of those left; past them, with what is missing.
    pub fn bad(&self, at: usize, why: impl fmt::Display) -> Bad {
        let source = if self.source.is_empty() { String::new() } else { format!("{}, ", self.source) };
        match (self.list.get(at), &self.last) {
            (Some((0, text)), _) => Bad::new(format!("{source}\"{text}\": {why}")),
            (Some((place, text)), _) => Bad::new(format!("{source}word {place}, \"{text}\": {why}")),
            (None, Some((0, _))) => Bad::new(format!("{source}{why}")),
            (None, Some((place, text))) => Bad::new(format!("{source}after word {place}, \"{text}\": {why}")),
            (None, None) => Bad::new(format!("{source}{why}")),
        }
    }
}
