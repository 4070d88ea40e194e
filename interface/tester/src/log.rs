//! `log`: the bytes of a text of entries, or the text of a log's bytes.

use other_scorer::notation::hex::to_hex;

use crate::both::Core;
use crate::input;
use crate::limit;
use crate::names::count;
use crate::page::{table, Page};
use crate::refusals::{of_part, sentence};
use crate::target::Target;
use crate::text;
use crate::walk::{whole, Walk};
use crate::words::{Bad, Words};

/// The other form of a log, printed or written into the file of to=.
pub fn run(core: &mut Core, mut words: Words) -> Result<String, Bad> {
    let plain = words.take_flag("--plain");
    let target = target(&mut words)?;
    let log = input::log(core, words)?;
    let walk = whole(core, &log.bytes);
    let said: Vec<String> = log.read.iter().chain(&log.notes).cloned().chain(limit::said(core, &log.bytes)).collect();
    if plain {
        log.notes.iter().for_each(|note| eprintln!("tester: {note}"));
    }
    let made = match log.from_text {
        true => log.bytes.clone(),
        false => lines(&log.bytes, &walk).into_bytes(),
    };
    if let Some(target) = target {
        target.write(&made)?;
        return Ok(if plain { String::new() } else { format!("{}{}: {}\n", remarks(&said, ""), target.file, count(made.len(), "byte")) });
    }
    Ok(match (log.from_text, plain) {
        (true, true) => to_hex(&log.bytes) + "\n",
        (true, false) => remarks(&said, "") + &listing(core, &log.bytes, &walk),
        (false, true) => lines(&log.bytes, &walk),
        (false, false) => remarks(&said, "# ") + &lines(&log.bytes, &walk),
    })
}

/// The file of to=.
fn target(words: &mut Words) -> Result<Option<Target>, Bad> {
    let to = words.take("to", |file| match file {
        "" => Err("the name of a file is missing".to_string()),
        _ => Ok(file.to_string()),
    })?;
    Target::of(words, "to=", to)
}

/// Lines that say as what a file was read, and that it is past the limit; a text has them behind a mark.
fn remarks(said: &[String], mark: &str) -> String {
    said.iter().map(|line| format!("{mark}{line}\n")).collect()
}

/// The text of a log: bytes that are no entry stand in hexadecimal, so that the text gives the log again.
fn lines(log: &[u8], walk: &Walk) -> String {
    let mut page = Page::default();
    walk.steps.iter().for_each(|step| page.line(text::line(&step.entry)));
    if let Some(at) = walk.stopped {
        page.line(format!("bytes {}  # {}", to_hex(&log[at..]), sentence(14, &of_part(&log[at..]))));
    }
    page.finish()
}

/// Each entry's offset, bytes and text.
fn listing(core: &Core, log: &[u8], walk: &Walk) -> String {
    let heads = ["byte", "entry", "bytes", "text"].map(String::from).to_vec();
    let mut rows = vec![heads];
    for (n, step) in (1..).zip(&walk.steps) {
        let bytes = to_hex(&step.entry.bytes());
        rows.push(vec![step.at.to_string(), n.to_string(), bytes, text::line(&step.entry)]);
    }
    if let Some(at) = walk.stopped {
        rows.push(vec![at.to_string(), "-".into(), to_hex(&log[at..]), sentence(14, &of_part(&log[at..]))]);
    }
    let mut page = Page::default();
    table(&rows, &[0, 1]).iter().for_each(|line| page.line(line));
    page.line(format!("{}, {}; {}", count(log.len(), "byte"), entries(walk), core.verdict()));
    page.finish()
}

/// The number of entries in words.
pub fn entries(walk: &Walk) -> String {
    match walk.steps.len() {
        1 => "1 entry".into(),
        n => format!("{n} entries"),
    }
}
