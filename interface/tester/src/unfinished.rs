//! An unfinished hand as it is typed, in tiles and melds, in bytes or as a record without its winning tile, and what is said of it first.

use other_scorer::codec;
use other_scorer::notation::hex::{from_hex, to_hex};
use other_scorer::notation::{print, text, tiles, unfinished};
use other_scorer::unfinished::{pack, unpack, Unfinished};

use crate::both::Core;
use crate::input;
use crate::names::count;
use crate::page::Page;
use crate::refusals::{of_record, of_unfinished, sentence};
use crate::words::{Bad, Words};

/// The record of a word record=HEX, whose digits may stand in several words.
pub fn record(words: &mut Words) -> Result<Option<Vec<u8>>, Bad> {
    words.join_digits("record");
    words.take("record", |value| match value {
        "" => Err("the record's bytes are missing, such as record=b81e640210620a31661a9a6bb0".into()),
        _ => from_hex(value),
    })
}

/// The discards of a word discards=TILES or kinds=HEX.
pub fn discards(words: &mut Words) -> Result<Vec<u8>, Bad> {
    words.join_digits("kinds");
    let by_tiles = words.take("discards", tiles)?;
    let by_bytes = words.take("kinds", from_hex)?;
    match (by_tiles, by_bytes) {
        (Some(_), Some(_)) => Err(Bad::new("discards= and kinds= say the same, one of them is enough")),
        (by_tiles, by_bytes) => Ok(by_tiles.or(by_bytes).unwrap_or_default()),
    }
}

/// Kinds as tiles, or as numbers where one is no kind.
pub fn kinds(list: &[u8]) -> String {
    match list.iter().all(|&kind| kind < 34) {
        _ if list.is_empty() => "none".into(),
        true => text(list),
        false => list.iter().map(u8::to_string).collect::<Vec<_>>().join(" "),
    }
}

/// The fields of a hand that has no notation.
pub fn fields(hand: &Unfinished) -> String {
    let melds: Vec<String> = hand.melds().iter().map(|meld| format!(", meld {} {}", meld.kind, meld.tile)).collect();
    let tiles: Vec<String> = hand.concealed().iter().map(u8::to_string).collect();
    format!("m {}{}, concealed {}", hand.m, melds.concat(), tiles.join(" "))
}

/// An unfinished hand that is asked about: its bytes, the record that it was taken from, its discards where they are asked for, the
/// refusal, and what may be meant otherwise.
#[derive(Default)]
pub struct Asked {
    pub bytes: Vec<u8>,
    record: Option<Vec<u8>>,
    pub discards: Option<Vec<u8>>,
    pub refusal: u8,
    notes: Vec<String>,
}

impl Asked {
    /// The hand of the words, or of the record that they gave; a record that is refused has none.
    pub fn of(core: &mut Core, words: &mut Words, record: Option<Vec<u8>>) -> Result<Asked, Bad> {
        words.no_options()?;
        let Some(record) = record else { return Asked::typed(core, words) };
        if !words.texts().is_empty() {
            return Err(words.bad(0, "record= has this already, leave the word out"));
        }
        let (written, bytes) = core.unfinished(&record);
        Ok(Asked { bytes: bytes[..written.len].to_vec(), record: Some(record), refusal: written.refusal, ..Asked::default() })
    }

    /// The hand of notation or of hexadecimal digits.
    fn typed(core: &mut Core, words: &mut Words) -> Result<Asked, Bad> {
        input::bytes_alone(words, "the hand's bytes say this already, leave the word out")?;
        if let Some(bytes) = input::hand_bytes(words) {
            let bytes = bytes?;
            let is_record = unpack(&bytes).is_err() && codec::unpack(&bytes).is_ok();
            let note = is_record.then(|| format!("these bytes have a record's length: write record={}", to_hex(&bytes)));
            return Ok(Asked { bytes, notes: note.into_iter().collect(), ..Asked::default() });
        }
        let left_out = left_out(words);
        let texts = words.texts();
        if texts.is_empty() {
            return Err(words.bad(0, "no hand, such as 567m22456p67s chi=234m"));
        }
        let hand = unfinished::parse(&texts).map_err(|fault| words.bad(fault.word, fault.why))?;
        let (written, bytes) = core.write_unfinished(&hand);
        let bytes = if written.refusal == 0 { bytes[..written.len].to_vec() } else { pack(&hand) };
        Ok(Asked { bytes, notes: [left_out, input::notes(words)].concat(), ..Asked::default() })
    }

    /// Whether there is no hand, as its record is refused.
    pub fn is_refused(&self) -> bool {
        self.record.is_some() && self.bytes.is_empty()
    }

    /// The hand.
    pub fn hand(&self) -> Option<Unfinished> {
        unpack(&self.bytes).ok().map(|(hand, _)| hand)
    }

    /// Whether it was taken from a record.
    pub fn has_record(&self) -> bool {
        self.record.is_some()
    }

    /// The conditions that the refusal met.
    fn met(&self) -> Vec<String> {
        match &self.record {
            Some(record) if self.is_refused() => of_record(self.refusal, record, 0, 0),
            _ => of_unfinished(self.refusal, &self.bytes, self.discards.as_deref().unwrap_or_default()),
        }
    }

    /// The hand, its discards, its record and bytes, and whether it was accepted.
    pub fn head(&self, page: &mut Page) {
        let bytes = |bytes: &[u8]| format!("{}, {}", to_hex(bytes), count(bytes.len(), "byte"));
        let of_record = || self.record.as_ref().and_then(|record| print(&codec::unpack(record).ok()?.0)).unwrap_or("none".into());
        page.row("hand", self.hand().map_or_else(of_record, |hand| unfinished::print(&hand).unwrap_or_else(|| fields(&hand))));
        self.discards.iter().for_each(|discards| page.row("discards", kinds(discards)));
        self.record.iter().for_each(|record| page.row("record", bytes(record)));
        if !self.is_refused() {
            page.row("bytes", bytes(&self.bytes));
        }
        page.row("answer", sentence(self.refusal, &self.met()));
        self.notes.iter().for_each(|note| page.row("note", note));
    }

    /// The same for scripts.
    pub fn plain_head(&self, page: &mut Page) {
        let exact = unpack(&self.bytes).ok().filter(|(_, padding)| !padding);
        page.plain("notation", exact.and_then(|(hand, _)| unfinished::print(&hand)));
        page.plain("bytes", [to_hex(&self.bytes)]);
        self.discards.iter().for_each(|discards| page.plain("discards", [to_hex(discards)]));
        page.plain("refusal", [self.refusal]);
        self.met().iter().for_each(|why| page.plain("why", [why]));
    }
}

/// Takes away what words say of the finished hand, where its winning tile is among them; a note says so.
fn left_out(words: &mut Words) -> Vec<String> {
    if !words.texts().iter().any(|word| word.contains('+')) {
        return Vec::new();
    }
    let more = words.take_all(unfinished::is_of_finished);
    let tiles: String = words.texts().into_iter().filter(|word| !word.contains('=')).collect();
    let winning = tiles.split_once('+').map_or(String::new(), |(_, winning)| format!("+{winning}"));
    vec![format!("left out, as said of the finished hand: {}", [vec![winning], more].concat().join(" "))]
}
