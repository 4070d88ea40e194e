//! `draft`: a hand as far as it was keyed in: what can be keyed in next, what is missing, and every answer that there is to it. For
//! programs that draw a hand, such as the desk handset.

use other_scorer::notation::hex::is_hex;
use other_scorer::notation::{meld, meld_kind, meld_word, no_tiles, one, seat, text, tiles, Typed, WORDS};
use other_scorer::record::CHI;
use other_scorer::tiles::{dora_after, starts_run};
use other_scorer::Meld;

use crate::answer::Answer;
use crate::both::Core;
use crate::names::seat_wind;
use crate::page::Page;
use crate::unfinished::discards;
use crate::words::{Bad, Words};
use crate::{fu, hand, input, readings, ready, say, sheet, slip, text as log_text, waits};

/// The words of riichi and of the situation, each at its number in a record.
const RIICHI: [&str; 3] = ["", "riichi", "double"];
const SITUATIONS: [&str; 5] = ["", "rinshan", "chankan", "last", "first"];

/// A hand as far as it was keyed in, how many tiles it has too many, and the indicator if one was named.
struct Draft {
    concealed: Vec<u8>,
    winning: Option<u8>,
    over: usize,
    melds: Vec<Meld>,
    discards: Vec<u8>,
    named: Option<u8>,
    indicator: u8,
    seat: Option<u8>,
    how: Option<String>,
    riichi: usize,
    situation: usize,
}

/// How many concealed tiles there are beside so many melds, the winning one left out (01, Tiles and the hand record).
fn needs(melds: usize) -> usize {
    13 - 3 * melds
}

/// The place of the one word of a list that is there, 0 if none is.
fn flag(words: &mut Words, list: &[&str]) -> Result<usize, Bad> {
    let found: Vec<usize> = (1..list.len()).filter(|&at| words.take_flag(list[at])).collect();
    match found[..] {
        [] => Ok(0),
        [at] => Ok(at),
        [at, other, ..] => Err(Bad::new(format!("{} and {}: one of them is enough", list[at], list[other]))),
    }
}

/// How it was won: tsumo, or ron= and the discarder.
fn how(words: &mut Words) -> Result<Option<String>, Bad> {
    let from = words.take("ron", seat)?;
    match (words.take_flag("tsumo"), from) {
        (true, Some(_)) => Err(Bad::new("tsumo and ron=: one of them is enough")),
        (true, None) => Ok(Some("tsumo".into())),
        (false, from) => Ok(from.map(|seat| format!("ron={seat}"))),
    }
}

/// A meld from its word and its tiles, or the lowest of them.
fn meld_of(key: &str, value: &str) -> Result<Meld, String> {
    match (meld_kind(key)?, &tiles(value)?[..]) {
        (CHI, &[tile]) if !starts_run(tile) => meld(key, value),
        (kind, &[tile]) => Ok(Meld { kind, tile }),
        _ => meld(key, value),
    }
}

impl Draft {
    /// What the words give. Of tiles without + the first are concealed, as many as there are beside the melds, and then comes the winning
    /// one.
    fn of(mut words: Words) -> Result<Draft, Bad> {
        let discards = discards(&mut words)?;
        let named = words.take("indicator", one)?;
        let indicator = named.unwrap_or(waits::NORTH);
        let (seat, how) = (words.take("seat", seat)?, how(&mut words)?);
        let (riichi, situation) = (flag(&mut words, &RIICHI)?, flag(&mut words, &SITUATIONS)?);
        words.no_options()?;
        let (mut typed, mut melds) = (Typed::default(), Vec::new());
        for (at, word) in words.texts().into_iter().enumerate() {
            let taken = match (word.split_once('='), no_tiles(word, WORDS)) {
                (Some((key, value)), _) => meld_of(key, value).map(|meld| melds.push(meld)),
                (None, Some(why)) => Err(why),
                (None, None) => typed.take(at, word),
            };
            taken.map_err(|why| words.bad(at, why))?;
            if melds.len() > 4 {
                return Err(words.bad(at, "a fifth meld, at most 4 fit"));
            }
        }
        let Typed { mut concealed, winning, .. } = typed;
        let mut more = concealed.split_off(concealed.len().min(needs(melds.len()))).into_iter();
        concealed.sort();
        let winning = winning.or_else(|| more.next());
        Ok(Draft { concealed, winning, over: more.len(), melds, discards, named, indicator, seat, how, riichi, situation })
    }

    /// How many tiles are missing.
    fn missing(&self) -> usize {
        needs(self.melds.len()) - self.concealed.len()
    }

    /// What is missing.
    fn next(&self) -> String {
        match (self.missing(), self.over) {
            (_, over @ 1..) => format!("over {over}"),
            (missing @ 1.., _) => format!("tiles {missing}"),
            _ if self.winning.is_none() => "winning".into(),
            _ if self.seat.is_none() => "seat".into(),
            _ if self.how.is_none() => "how".into(),
            _ => "nothing".into(),
        }
    }

    /// How many of a kind the hand and the discards show, the indicator left out.
    fn seen(&self, kind: u8) -> usize {
        let held = self.melds.iter().flat_map(Meld::tiles).chain(self.concealed.iter().copied());
        held.chain(self.winning).chain(self.discards.iter().copied()).filter(|&tile| tile == kind).count()
    }

    /// Whether so many of a kind can be keyed in without a fifth.
    fn has(&self, kind: u8, number: usize) -> bool {
        self.seen(kind) + (self.indicator == kind) as usize + number <= 4
    }

    /// The kinds that can be keyed in: as a tile, as a meld by its lowest tile, as the indicator, as a discard.
    fn keys(&self) -> Vec<(&'static str, Vec<u8>)> {
        let room = self.missing() > 0 || self.winning.is_none();
        let meld_room = self.melds.len() < 4 && self.missing() >= 3;
        let of = |can: &dyn Fn(u8) -> bool| (0..34).filter(|&kind| can(kind)).collect::<Vec<u8>>();
        let equal = |number: usize| of(&|kind| meld_room && self.has(kind, number));
        vec![
            ("tile", of(&|kind| room && self.has(kind, 1))),
            ("chi", of(&|kind| meld_room && starts_run(kind) && (kind..kind + 3).all(|kind| self.has(kind, 1)))),
            ("pon", equal(3)),
            ("kan", equal(4)),
            ("ankan", equal(4)),
            ("indicator", of(&|kind| self.seen(kind) < 4)),
            ("discard", of(&|kind| self.has(kind, 1))),
        ]
    }

    /// The melds as words.
    fn meld_words(&self) -> Vec<String> {
        self.melds.iter().map(meld_word).collect()
    }

    /// The finished hand as words; none while something is missing.
    fn finished(&self) -> Option<String> {
        let tiles = format!("{}+{}", text(&self.concealed), text(&[self.winning?]));
        let more = [format!("seat={}", self.seat?), self.how.clone()?, RIICHI[self.riichi].into(), SITUATIONS[self.situation].into()];
        let indicator = format!("indicator={}", text(&[self.indicator]));
        let all = [vec![tiles], self.meld_words(), more.to_vec(), vec![indicator]].concat();
        (self.next() == "nothing").then(|| all.join(" "))
    }

    /// The unfinished hand as words; none while tiles are missing, or once it is finished.
    fn unfinished(&self) -> Option<String> {
        let words = [vec![text(&self.concealed)], self.meld_words()].concat().join(" ");
        (self.next() == "winning").then_some(words)
    }

    /// What was keyed in, what can be keyed in next, and what is missing.
    fn rows(&self, page: &mut Page, dealer: u8, wind: u8) {
        page.plain("concealed", [text(&self.concealed)]);
        page.plain("winning", self.winning.map(|tile| text(&[tile])));
        self.melds.iter().for_each(|meld| page.plain("meld", [meld_word(meld).replace('=', " ")]));
        page.plain("discards", [text(&self.discards)]);
        page.plain("indicator", [text(&[self.indicator])]);
        page.plain("dora-tile", [text(&[dora_after(self.indicator)])]);
        page.plain("seat", self.seat);
        page.plain("how", self.how.as_ref().map(|how| how.replace('=', " ")));
        page.plain("riichi", [RIICHI[self.riichi]]);
        page.plain("situation", [SITUATIONS[self.situation]]);
        table(page, dealer, wind);
        page.plain("from", (0..4).filter(|&seat| Some(seat) != self.seat));
        page.plain("needs", [needs(self.melds.len())]);
        self.keys().iter().for_each(|(key, kinds)| page.plain("key", [key, text(kinds).as_str()]));
        page.plain("next", [self.next()]);
    }
}

/// Dealer and wind, and the winds of the four seats.
fn table(page: &mut Page, dealer: u8, wind: u8) {
    page.plain("dealer", [dealer]);
    page.plain("wind", [wind]);
    page.plain("winds", (0..4).filter(|_| dealer < 4).map(|seat| seat_wind(seat, dealer)));
}

/// The lines of a command behind the draft's own.
fn ask(core: &mut Core, page: &mut Page, name: &str, line: String, command: crate::Command) -> Result<(), Bad> {
    page.plain("answer", [name]);
    let lines = command(core, Words::of_line(String::new(), &format!("{line} --plain")))?;
    page.line(lines);
    Ok(())
}

/// The answers to a finished hand: its score with the groups that earn fu, its readings, its slip, and what is said of it.
fn finished(core: &mut Core, page: &mut Page, line: &str, language: Option<u8>) -> Result<(), Bad> {
    page.plain("answer", ["hand"]);
    let answer = Answer::of(core, Words::of_line(String::new(), line))?;
    hand::plain(page, &answer);
    fu::plain(page, &answer);
    ask(core, page, "readings", line.into(), readings::run)?;
    ask(core, page, "slip", line.into(), slip::run)?;
    let Some(language) = language else { return Ok(()) };
    match answer.scored.refusal {
        0 => {
            ask(core, page, "say", format!("{line} language={language}"), say::run)?;
            ask(core, page, "say-fu", format!("{line} --fu language={language}"), say::run)
        }
        number => ask(core, page, "say", format!("refusal {number} language={language}"), say::run),
    }
}

/// The answers to an unfinished hand: what it waits for and what that would score, how far it is from ready, and what is said of it.
fn unfinished(core: &mut Core, page: &mut Page, draft: &Draft, line: &str, table: &str, language: Option<u8>) -> Result<(), Bad> {
    let discards = format!("{line} discards={}", text(&draft.discards));
    let indicator = draft.named.map_or(String::new(), |named| format!("indicator={}", text(&[named])));
    let last = if draft.situation == 3 { "last" } else { "" };
    let player = draft.seat.map(|seat| format!("seat={seat} {indicator} {} {last} {table}", RIICHI[draft.riichi]));
    let asked = format!("{discards} {}", player.unwrap_or_default());
    ask(core, page, "waits", asked.clone(), waits::run)?;
    waits::plain_scores(core, page, Words::of_line(String::new(), &asked))?;
    ask(core, page, "ready", line.into(), ready::run)?;
    ready::plain_swaps(core, page, Words::of_line(String::new(), line))?;
    let Some(language) = language else { return Ok(()) };
    ask(core, page, "say", format!("waits {discards} language={language}"), say::run)?;
    ask(core, page, "say-ready", format!("ready {line} language={language}"), say::run)
}

/// Of a record in hexadecimal digits its notation, or the digits where it has none.
fn record(core: &mut Core, words: &Words) -> Result<Option<String>, Bad> {
    let texts = words.texts();
    let digits = texts.iter().all(|word| is_hex(word)) && texts.iter().any(|word| tiles(word).is_err());
    digits.then(|| input::record(core, words).map(|bytes| log_text::hand(&bytes))).transpose()
}

/// The draft and its answers, for scripts.
pub fn run(core: &mut Core, mut words: Words) -> Result<String, Bad> {
    words.take_flag("--plain");
    let language = words.take("language", sheet::language)?;
    let (dealer, wind) = input::table(&mut words)?;
    let table_words = format!("dealer={dealer} wind={wind}");
    let mut page = Page::default();
    match record(core, &words)? {
        Some(digits) if is_hex(&digits) => {
            page.plain("fixed", [&digits]);
            table(&mut page, dealer, wind);
            page.plain("next", ["nothing"]);
            finished(core, &mut page, &format!("{digits} {table_words}"), language)?;
        }
        notation => {
            input::notes(&words).iter().for_each(|note| page.plain("note", [note]));
            let draft = Draft::of(notation.map_or(words, |line| Words::of_line(String::new(), &line)))?;
            draft.rows(&mut page, dealer, wind);
            if let Some(line) = draft.finished() {
                finished(core, &mut page, &format!("{line} {table_words}"), language)?;
            } else if let Some(line) = draft.unfinished() {
                unfinished(core, &mut page, &draft, &line, &table_words, language)?;
            }
        }
    }
    page.plain("differences", [core.differences.count]);
    Ok(page.finish())
}
