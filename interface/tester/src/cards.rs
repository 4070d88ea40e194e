//! `cards`: the practice cards of a suit and a size, as the core lists them.

use archive::CARDS_MAX;
use other_scorer::notation::text;

use crate::both::Core;
use crate::names::count;
use crate::page::Page;
use crate::refusals::sentence;
use crate::words::{Bad, Words};

/// The longest buffer that is lent.
const LONGEST: usize = 65_536;

/// So many signs fit in a line.
const WIDTH: usize = 72;

/// A suit by its letter or its number.
fn suit(word: &str) -> Option<u8> {
    ["m", "p", "s"].iter().position(|letter| letter.eq_ignore_ascii_case(word)).map(|at| at as u8).or_else(|| word.parse().ok())
}

/// The cards, or why there are none.
pub fn run(core: &mut Core, mut words: Words) -> Result<String, Bad> {
    let plain = words.take_flag("--plain");
    let length = words.take("buffer", |value| match value.parse() {
        Ok(length) if length <= LONGEST => Ok(length),
        _ => Err(format!("a number 0 to {LONGEST} is needed")),
    })?;
    let length = length.unwrap_or(CARDS_MAX);
    words.no_options()?;
    let texts = words.texts();
    let suit = match texts.first() {
        Some(word) => suit(word).ok_or_else(|| words.bad(0, "a suit m, p or s is needed (a number up to 255 to see it refused)"))?,
        None => return Err(words.bad(0, "no suit, such as m")),
    };
    let size: u8 = match texts.get(1) {
        Some(word) => word.parse().map_err(|_| words.bad(1, "2, 5 or 8 tiles are needed (a number up to 255 to see it refused)"))?,
        None => return Err(words.bad(1, "no number of tiles: 2, 5 or 8")),
    };
    if texts.len() > 2 {
        return Err(words.bad(2, "one word too many"));
    }
    let (answer, bytes) = core.cards(suit, size, length);
    let written = &bytes[..length.min(answer.count as usize * size as usize)];
    let cards: Vec<String> = written.chunks(size.max(1) as usize).map(text).collect();

    let mut page = Page::default();
    if plain {
        page.plain("suit", [suit]);
        page.plain("size", [size]);
        page.plain("refusal", [answer.refusal]);
        page.plain("count", [answer.count]);
        cards.iter().for_each(|card| page.plain("card", [card]));
        page.plain("differences", [core.differences.count]);
        return Ok(page.finish());
    }
    page.row("cards", format!("suit {suit}, {}, a buffer of {}", count(size as usize, "tile"), count(length, "byte")));
    page.row("answer", sentence(answer.refusal, &[]));
    if answer.refusal == 0 {
        page.row("count", format!("{}, {}", count(answer.count as usize, "set"), count(written.len(), "byte")));
        page.line("");
        let across = WIDTH / (size as usize + 2);
        cards.chunks(across).for_each(|row| page.line(row.join(" ")));
    }
    page.line("");
    page.line(core.verdict());
    Ok(page.finish())
}
