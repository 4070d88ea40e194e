//! `game`: a log's entries with what each came to, and the game after the last one. For programs that draw it, such as the desk handset.

use std::collections::BTreeMap;

use archive::Position;
use other_scorer::log::letter;
use other_scorer::notation::hex::to_hex;

use crate::both::Core;
use crate::names::seat_wind;
use crate::outcome::Outcome;
use crate::page::Page;
use crate::refusals::{of_entry, of_part};
use crate::tally::accepted;
use crate::walk::{whole, Walk};
use crate::words::{Bad, Words};
use crate::{input, limit, say, sheet, text};

/// The game of a log, for scripts.
pub fn run(core: &mut Core, mut words: Words) -> Result<String, Bad> {
    words.take_flag("--plain");
    let language = words.take("language", sheet::language)?;
    let from: Option<usize> = words.take_number("from", "of an entry, such as 1,", usize::MAX)?;
    let more = words.take("more", |line| Ok(line.to_string()))?;
    let mut given = input::log(core, words)?;
    if let Some(line) = more {
        let entry = text::after(core, &given.bytes, &line)?;
        given.bytes.extend(entry);
        given.notes.extend(input::notes(&Words::unplaced(&line)));
    }
    let (log, cut) = (limit::read(&given.bytes), limit::said(core, &given.bytes));
    let walk = whole(core, log);
    core.lines(log);
    let mut page = Page::default();
    page.plain("read", given.read);
    given.notes.iter().for_each(|note| page.plain("note", [note]));
    page.plain("log", [to_hex(log)]);
    page.plain("cut", cut);
    results(&mut page, &walk);
    page.plain("entries", [walk.steps.len()]);
    page.plain("last", walk.steps.last().map(|step| step.at));
    entries(core, &mut page, &walk, from.map_or(walk.steps.len().saturating_sub(SHOWN), |from| from.saturating_sub(1)));
    if let Some(at) = walk.stopped {
        page.plain("stopped", [at.to_string(), to_hex(&log[at..]), of_part(&log[at..]).join("; ")]);
    }
    let position = position(&walk);
    let correctable = walk.steps.last().map_or(0, |step| step.after.archive.correctable);
    now(&mut page, &position, correctable);
    if let Some(language) = language {
        page.plain("answer", ["say"]);
        say::scores(core, &mut page, language, &position);
    }
    page.plain("differences", [core.differences.count]);
    Ok(page.finish())
}

/// How many entries are shown.
const SHOWN: usize = 100;

/// The scores at the start, and after each finished hand; a correction's stand in the place of those that it supersedes.
fn results(page: &mut Page, walk: &Walk) {
    page.plain("start", archive::fresh_game().now.scores);
    let finished = walk.steps.iter().filter(|step| step.refusal == 0 && step.entry.finishes());
    let by_hand: BTreeMap<u8, [i32; 4]> = finished.map(|step| &step.after.archive.now).map(|now| (now.hands, now.scores)).collect();
    by_hand.iter().for_each(|(hands, scores)| page.plain("result", [i32::from(*hands)].iter().chain(scores)));
}

/// The entries from a place on, as many as are shown.
fn entries(core: &mut Core, page: &mut Page, walk: &Walk, from: usize) {
    let (before, rest) = walk.steps.split_at(from.min(walk.steps.len()));
    let mut last = before.iter().rposition(|step| step.refusal == 0).map_or(0, |at| at + 1);
    for (n, step) in (before.len() + 1..).zip(rest.iter().take(SHOWN)) {
        let remark = match step.refusal {
            0 => accepted(step, std::mem::replace(&mut last, n)),
            refusal => Some(of_entry(refusal, &step.entry, &step.before.other).join("; ")),
        };
        entry(page, n, &Outcome::of(core, step), remark);
    }
}

/// The position that stands after a walk.
pub fn position(walk: &Walk) -> Position {
    walk.steps.last().map_or(archive::fresh_game().now, |step| step.after.archive.now)
}

/// An entry: number, byte, letter and refusal; dealer, wind, counter and sticks before it; changes, scores, and sticks, counter and
/// hands after it. Then its text, and what is to be said of it.
fn entry(page: &mut Page, n: usize, outcome: &Outcome, remark: Option<String>) {
    let (step, before, after) = (outcome.step, &outcome.position, &outcome.step.after.archive.now);
    let mut line = format!("entry {n} {} {} {}", step.at, letter(&step.entry), step.refusal);
    let deal = [before.dealer.into(), before.wind.into(), before.counter.into(), before.sticks.into()];
    let table = [after.sticks.into(), after.counter.into(), after.hands.into()];
    for number in deal.into_iter().chain(outcome.changes()).chain(after.scores.map(i64::from)).chain(table) {
        line.push(' ');
        line += &number.to_string();
    }
    page.line(line);
    page.plain("text", [text::line(&step.entry)]);
    remark.iter().filter(|remark| !remark.is_empty()).for_each(|remark| page.plain("remark", [remark]));
}

/// The position that stands: dealer, wind, sticks, counter, hands, whether it is over; the seats by their scores; declared seats, paos.
fn now(page: &mut Page, position: &Position, correctable: u32) {
    let Position { scores, sticks, declared, dealer, wind, hands, over, counter, feeders } = *position;
    page.plain("now", [dealer.into(), wind.into(), sticks, counter, hands.into(), over.into()]);
    page.plain("scores", scores);
    page.plain("winds", (0..4).filter(|_| dealer < 4).map(|seat| seat_wind(seat, dealer)));
    page.plain("declared", (0..4).filter(|&seat| declared[seat] != 0));
    for (place, feeder) in feeders.into_iter().enumerate().filter(|(_, feeder)| *feeder > 0) {
        page.plain("pao", [place % 4, usize::from(feeder) - 1, 28 + place / 4]);
    }
    page.plain("correctable", [correctable]);
    for seat in 0..4 {
        let above = scores.iter().filter(|&&score| score > scores[seat]).count();
        page.plain("place", [1 + above, seat]);
    }
}
