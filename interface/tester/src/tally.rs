//! `tally`: a log's entries one after the other, and the game after each.

use archive::MESSAGE_MAX;
use other_scorer::{Entry, Position};

use crate::both::Core;
use crate::csv;
use crate::input;
use crate::limit;
use crate::log::entries;
use crate::names::{count, points, wind};
use crate::outcome::{made_in, standings, Outcome};
use crate::page::{table, Page};
use crate::refusals::{of_draw, of_entry, of_part, of_wins, sentence};
use crate::say::numbers;
use crate::sheet::{self, parts};
use crate::text;
use crate::walk::{whole, Step, Walk};
use crate::words::{Bad, Words};

/// The game of a log, entry by entry; with --words who did what, what it came to and why an entry is refused, below it; with --say what
/// the handset says of the scores; with --csv a sheet instead.
pub fn run(core: &mut Core, mut words: Words) -> Result<String, Bad> {
    let (plain, why) = (words.take_flag("--plain"), words.take_flag("--words"));
    let sheet = words.take_flag("--csv");
    let language = language(&mut words)?;
    if sheet && language.is_some() {
        return Err(Bad::new("--csv and --say: a sheet has no place for what is said, leave one of them out"));
    }
    let given = input::log(core, words)?;
    let (log, cut) = (limit::read(&given.bytes), limit::said(core, &given.bytes));
    let walk = whole(core, log);
    let (lines, said) = (core.lines(log), said(core, &walk, language));
    let stopped = stopped(log, &walk);
    if plain || sheet {
        given.notes.iter().chain(&cut).for_each(|said| eprintln!("tester: {said}"));
    }
    if sheet {
        let deals: Vec<String> = walk.steps.iter().map(|step| deal(&made_in(step))).collect();
        return Ok(csv::sheet(&outcomes(core, &walk), &deals, remarks(&walk), stopped));
    }
    let remarks = if why { remarks(&walk) } else { vec![None; walk.steps.len()] };
    let mut page = Page::default();
    if plain && !why && language.is_none() {
        return Ok(lines);
    }
    if plain {
        for ((remark, line), (clips, _)) in remarks.iter().zip(lines.lines()).zip(said) {
            page.line(worded(line, remark.as_deref()));
            clips.iter().for_each(|clips| page.plain("clips", [clips.replace(';', "")]));
        }
        return Ok(page.finish());
    }
    given.read.iter().chain(&given.notes).for_each(|said| page.line(said));
    let outcomes = if why { outcomes(core, &walk) } else { Vec::new() };
    let mut rows = listing(&walk, &outcomes).into_iter();
    rows.by_ref().take(1).for_each(|heads| page.line(heads));
    for (at, (remark, (clips, words))) in remarks.into_iter().zip(said).enumerate() {
        let own = outcomes.get(at).map_or(1, |outcome| 1 + changes(outcome).is_some() as usize);
        rows.by_ref().take(own).for_each(|row| page.line(row));
        let told = outcomes.get(at).map_or(Vec::new(), Outcome::lines);
        told.into_iter().chain(remark).chain(words).chain(clips).for_each(|text| page.line(format!("      {text}")));
    }
    page.line("");
    stopped.into_iter().chain(cut).for_each(|line| page.line(line));
    let position = walk.steps.last().map_or(Position::fresh(), |step| *step.after.other.now());
    let refused = walk.steps.iter().filter(|step| step.refusal != 0).count();
    let state = if position.over { "the game is over".to_string() } else { format!("{} is on", deal(&position)) };
    let hands = count(position.hands as usize, "hand");
    page.line(format!("{}, {refused} refused; {hands} finished; {state}", entries(&walk)));
    if why {
        page.line(standings(&position));
    }
    page.line(core.verdict());
    Ok(page.finish())
}

/// Where a walk over a log was stopped by 14, in words.
pub fn stopped(log: &[u8], walk: &Walk) -> Option<String> {
    walk.stopped.map(|at| format!("stopped at byte {at}, {:02x}: {}", log[at], sentence(14, &of_part(&log[at..]))))
}

/// What each entry came to.
fn outcomes<'a>(core: &mut Core, walk: &'a Walk) -> Vec<Outcome<'a>> {
    walk.steps.iter().map(|step| Outcome::of(core, step)).collect()
}

/// The cells of an accepted entry's changes, for a line below its scores.
fn changes(outcome: &Outcome) -> Option<Vec<String>> {
    let label = ["", "", "changes"].map(String::from);
    (outcome.step.refusal == 0).then(|| [&label[..], &outcome.cells()].concat())
}

/// Of each step: why it was refused, or what is to be said of an accepted one.
fn remarks(walk: &Walk) -> Vec<Option<String>> {
    let mut last = 0;
    let each = (1..).zip(&walk.steps).map(|(n, step)| match step.refusal {
        0 => accepted(step, std::mem::replace(&mut last, n)),
        refusal => Some(sentence(refusal, &of_entry(refusal, &step.entry, &step.before.other))),
    });
    each.collect()
}

/// Of an accepted step: which entry a correction supersedes, the `last` accepted one, what an accepted draw was besides one, and who pays
/// and takes what of wins that are no plain ones.
pub fn accepted(step: &Step, last: usize) -> Option<String> {
    let (superseded, booking) = match &step.entry {
        Entry::Correction(new) => (Some(format!("supersedes entry {last}")), new.as_ref()),
        booking => (None, booking),
    };
    let position = made_in(step);
    let said: Vec<String> = superseded.into_iter().chain(of_draw(booking, &position)).chain(of_wins(booking, &position)).collect();
    (!said.is_empty()).then(|| said.join("; "))
}

/// A line of tally with its remark behind it.
fn worded(line: &str, remark: Option<&str>) -> String {
    match remark {
        None => line.into(),
        Some(remark) => format!("{line} {remark}"),
    }
}

/// The language of --say.
fn language(words: &mut Words) -> Result<Option<u8>, Bad> {
    let language = words.take_after("--say", "the language is missing, such as ja")?;
    let understood = language.map(|value| sheet::language(&value).map_err(|why| Bad::new(format!("--say {value}: {why}"))));
    understood.transpose()
}

/// Of each step what the handset says of the scores then, as clips and in words, the parts between semicolons.
fn said(core: &mut Core, walk: &Walk, language: Option<u8>) -> Vec<(Option<String>, Option<String>)> {
    let mut of_step = |step: &Step| {
        let Some(language) = language else { return (None, None) };
        let (said, clips) = core.say_scores(language, &step.after.archive.now, MESSAGE_MAX);
        if said.refusal != 0 {
            return (None, Some(sentence(said.refusal as u8, &[])));
        }
        let each = |text: &dyn Fn(&[u8]) -> String| Some(parts(&clips).into_iter().map(text).collect::<Vec<_>>().join("; "));
        (each(&numbers), each(&|part| sheet::words(language, part)))
    };
    walk.steps.iter().map(&mut of_step).collect()
}

/// The deal by its wind and the dealer's number from 1.
fn deal(position: &Position) -> String {
    format!("{}{}", wind(position.wind), position.dealer + 1)
}

/// The paos named in a position: the feeder, the holder and the yaku of each.
fn paos(position: &Position) -> String {
    let named = (0..4).flat_map(|holder| [28, 29].map(|yaku| (holder, yaku)));
    let each = named.filter_map(|(holder, yaku)| Some(format!("{} to {holder} {yaku}", position.feeder(holder, yaku)?)));
    each.collect::<Vec<_>>().join(", ")
}

/// A line for each entry, after a line of heads; a column for the paos where one is named; below an entry the changes of its outcome, if
/// outcomes are given.
fn listing(walk: &Walk, outcomes: &[Outcome]) -> Vec<String> {
    let pao = walk.steps.iter().any(|step| step.after.archive.now.feeders != [0; 8]);
    let mut heads = vec!["entry", "deal", "refusal", "seat 0", "seat 1", "seat 2", "seat 3", "sticks", "counter"];
    heads.extend(pao.then_some("pao"));
    heads.push("text");
    let mut rows = vec![heads.into_iter().map(String::from).collect()];
    for (at, step) in walk.steps.iter().enumerate() {
        let position = &step.after.archive.now;
        let mut row = vec![(at + 1).to_string(), deal(&made_in(step)), step.refusal.to_string()];
        row.extend(position.scores.map(|score| points(score as i64)));
        row.extend([position.sticks.to_string(), position.counter.to_string()]);
        row.extend(pao.then(|| paos(step.after.other.now())));
        row.push(text::line(&step.entry));
        rows.push(row);
        rows.extend(outcomes.get(at).and_then(changes));
    }
    table(&rows, &[0, 1, 2, 3, 4, 5, 6, 7, 8])
}
