//! What a file of a log holds: a text of entries, hexadecimal digits, or the log's bytes.

use other_scorer::notation::hex::{is_hex, to_hex};

use crate::text;
use crate::words::{Bad, Words};

/// The forms of a log in a file.
#[derive(Clone, Copy, PartialEq)]
pub enum Form {
    Text,
    Hex,
    Bytes,
}

/// The marks at the start of a text in UTF-16 or UTF-32; no log that is read to its end begins with them.
const MARKS: [&[u8]; 3] = [&[0xff, 0xfe], &[0xfe, 0xff], &[0, 0, 0xfe, 0xff]];

/// The mark that some editors put at the start of a text in UTF-8.
const UTF8_MARK: char = '\u{feff}';

/// Ctrl-Z, with which old programs end a text.
const CTRL_Z: u8 = 0x1a;

/// The signs that end a line, each by itself; CR and LF together are one end.
const ENDS: [char; 5] = ['\n', '\r', '\u{85}', '\u{2028}', '\u{2029}'];

/// What to do about a file that is no text in UTF-8.
const ADVICE: &str = "save the text as UTF-8, or write as=bytes if the file holds a log's bytes";

impl Form {
    /// The form with this name.
    pub fn named(name: &str) -> Result<Form, String> {
        let form = [Form::Text, Form::Hex, Form::Bytes].into_iter().find(|form| form.name().eq_ignore_ascii_case(name));
        form.ok_or("text, hex or bytes is needed".into())
    }

    /// The word of as=.
    pub fn name(self) -> &'static str {
        match self {
            Form::Text => "text",
            Form::Hex => "hex",
            Form::Bytes => "bytes",
        }
    }

    /// The form of a content that nobody has named. It is text if an entry's word stands in it, if it looks like a text in UTF-16 or
    /// JIS, or if it has no control bytes but tabs and line ends; such a text of hexadecimal digits alone is hexadecimal. All else is
    /// bytes: every log with a riichi or a win has a control byte, their headers 00 to 03 and 10.
    pub fn of(content: &[u8]) -> Form {
        let is_control = |byte: &u8| byte.is_ascii_control() && !b"\t\r\n".contains(byte);
        let content = without_end(content);
        if has_mark(content) || has_entry(content) || is_utf16(content) || is_jis(content) {
            return Form::Text;
        }
        if content.iter().any(is_control) {
            return Form::Bytes;
        }
        if is_digits(content) {
            Form::Hex
        } else {
            Form::Text
        }
    }
}

/// Whether a content begins with the mark of another encoding.
fn has_mark(content: &[u8]) -> bool {
    MARKS.iter().any(|mark| content.starts_with(mark))
}

/// A content without the Ctrl-Z that old programs put at the end of a text.
fn without_end(content: &[u8]) -> &[u8] {
    let length = content.iter().rposition(|&byte| byte != CTRL_Z).map_or(0, |last| last + 1);
    &content[..length]
}

/// Whether an entry's word stands in a content, zero bytes left out, which UTF-16 has between letters: no letter stands before it, and
/// a space, a line end, a colon, = or nothing behind it.
fn has_entry(content: &[u8]) -> bool {
    let letters: Vec<u8> = content.iter().copied().filter(|&byte| byte != 0).collect();
    let begins = |at: usize| at == 0 || !letters[at - 1].is_ascii_alphabetic();
    let ends = |at: usize| letters.get(at).is_none_or(|byte| byte.is_ascii_whitespace() || b":=".contains(byte));
    let is_word = |at: usize, word: &[u8]| letters[at..].get(..word.len()).is_some_and(|found| found.eq_ignore_ascii_case(word));
    let has = |at: usize| text::WORDS.iter().any(|word| is_word(at, word.as_bytes()) && ends(at + word.len()));
    (0..letters.len()).any(|at| begins(at) && has(at))
}

/// Whether a content is a text in UTF-16 without a mark: half of its signs or more are plain ones, a line end or three small letters
/// among them, with the two bytes of each in one order or the other.
fn is_utf16(content: &[u8]) -> bool {
    let is_plain = |sign: &u16| matches!(sign, 9 | 10 | 13 | 0x20..0x7f);
    let is_end = |sign: &u16| matches!(sign, 10 | 13);
    let is_small = |sign: &u16| matches!(sign, 0x61..=0x7a);
    [u16::from_le_bytes, u16::from_be_bytes].into_iter().any(|sign: fn([u8; 2]) -> u16| {
        let signs: Vec<u16> = content.chunks_exact(2).map(|two| sign([two[0], two[1]])).collect();
        let number = |is: &dyn Fn(&u16) -> bool| signs.iter().filter(|sign| is(sign)).count();
        2 * number(&is_plain) >= signs.len() && (number(&is_end) > 0 || number(&is_small) > 2)
    })
}

/// Whether a content is a text in JIS, ISO-2022-JP: it goes over to Japanese signs, and back.
fn is_jis(content: &[u8]) -> bool {
    let has = |signs: &[&[u8]]| content.windows(3).any(|three| signs.contains(&three));
    has(&[b"\x1b$@", b"\x1b$B"]) && has(&[b"\x1b(B", b"\x1b(J"])
}

/// Whether the words of all lines are hexadecimal digits, and there is one.
fn is_digits(content: &[u8]) -> bool {
    let Ok(text) = std::str::from_utf8(content) else { return false };
    let lines: Vec<Words> = lines("", text).collect();
    let words: Vec<&str> = lines.iter().flat_map(Words::texts).collect();
    !words.is_empty() && words.into_iter().all(is_hex)
}

/// A line of a file by its number; a text that has no name is named by nothing.
fn line_of(name: &str, number: usize) -> String {
    match name {
        "" => format!("line {number}"),
        _ => format!("{name}, line {number}"),
    }
}

/// The lines of a text, as whatever system ends them.
fn split(text: &str) -> Vec<&str> {
    let pieces = text.split('\n').flat_map(|line| line.strip_suffix('\r').unwrap_or(line).split(ENDS));
    pieces.collect()
}

/// The words of each line; `name` is the file's, for messages.
pub fn lines<'a>(name: &'a str, text: &'a str) -> impl Iterator<Item = Words> + 'a {
    let numbered = (1..).zip(split(text.trim_start_matches(UTF8_MARK)));
    numbered.map(move |(number, line)| Words::of_line(line_of(name, number), line))
}

/// The content as text in UTF-8, or where it is none.
pub fn utf8<'a>(name: &str, content: &'a [u8]) -> Result<&'a str, Bad> {
    let content = without_end(content);
    let bad = |at: usize, length: usize, why: &str| {
        let before = split(std::str::from_utf8(&content[..at]).unwrap_or_default());
        let byte = 1 + before.last().map_or(0, |line| line.len());
        let bytes = to_hex(&content[at..content.len().min(at + length)]);
        Bad::new(format!("{}, byte {byte} of the line, {bytes}: {why}; {ADVICE}", line_of(name, before.len())))
    };
    if has_mark(content) {
        return Err(bad(0, 2, "the mark of a text in UTF-16 or UTF-32"));
    }
    let text = std::str::from_utf8(content).map_err(|error| bad(error.valid_up_to(), 1, "this is no UTF-8"))?;
    match text.char_indices().find(|(_, sign)| sign.is_control() && *sign != '\t' && !ENDS.contains(sign)) {
        Some((at, sign)) => Err(bad(at, sign.len_utf8(), "a control sign, which a text does not have")),
        None => Ok(text),
    }
}
