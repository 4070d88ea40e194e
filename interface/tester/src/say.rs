//! `say`: what the handset says of a hand, its fu, an unfinished hand, a game's scores or a refusal, in words and as clips.

use archive::{Position, Said, MESSAGE_MAX};

use crate::answer::Answer;
use crate::both::Core;
use crate::game::position;
use crate::input;
use crate::limit;
use crate::names::count;
use crate::page::{table, Page};
use crate::refusals::{refusal, sentence};
use crate::sheet::{self, parts};
use crate::tally::stopped;
use crate::target::Target;
use crate::unfinished::{discards, record, Asked};
use crate::walk::whole;
use crate::wav;
use crate::words::{Bad, Words};

/// The longest buffer that is lent.
const LONGEST: usize = 65_536;

/// What is asked besides the thing that is said.
struct Wish {
    plain: bool,
    language: u8,
    buffer: usize,
    wav: Option<Target>,
}

/// A language, a buffer's length and a file from the words of a command.
fn wish(words: &mut Words) -> Result<Wish, Bad> {
    let plain = words.take_flag("--plain");
    let wav = words.take_after("--wav", "the name of a file is missing")?;
    let wav = Target::of(words, "--wav ", wav)?;
    let buffer = words.take("buffer", |value| match value.parse() {
        Ok(length) if length <= LONGEST => Ok(length),
        _ => Err(format!("a number 0 to {LONGEST} is needed")),
    })?;
    let language = words.take("language", sheet::language)?;
    let missing = words.bad(words.texts().len(), "the language is missing, such as language=ja");
    Ok(Wish { plain, language: language.ok_or(missing)?, buffer: buffer.unwrap_or(MESSAGE_MAX), wav })
}

/// The message with what was asked, in words and as clips.
pub fn run(core: &mut Core, mut words: Words) -> Result<String, Bad> {
    let wish = wish(&mut words)?;
    let mut page = Page::default();
    let kind = words.texts().first().filter(|word| ["waits", "ready", "refusal", "scores"].contains(word)).map(|word| word.to_string());
    if kind.is_some() {
        words.take_first();
    }
    let (said, clips) = match kind.as_deref() {
        Some("waits") => of_waits(core, &mut page, &wish, words)?,
        Some("ready") => of_ready(core, &mut page, &wish, words)?,
        Some("scores") => of_scores(core, &mut page, &wish, words)?,
        Some(_) => of_refusal(core, &mut page, &wish, words)?,
        None => of_hand(core, &mut page, &wish, words)?,
    };
    if let (Some(target), 0) = (&wish.wav, said.refusal) {
        target.check()?;
        wav::write(&target.file, wish.language, &clips)?;
    }
    if wish.plain {
        plain(&mut page, wish.language, said, &clips);
        page.plain("differences", [core.differences.count]);
        return Ok(page.finish());
    }
    rows(&mut page, &wish, said, &clips);
    page.line("");
    page.line(core.verdict());
    Ok(page.finish())
}

/// The message of a hand, or with --fu of its fu.
fn of_hand(core: &mut Core, page: &mut Page, wish: &Wish, mut words: Words) -> Result<(Said, Vec<u8>), Bad> {
    let fu = words.take_flag("--fu");
    let answer = Answer::of(core, words)?;
    if wish.plain {
        answer.plain_head(page)
    } else {
        answer.head(page)
    }
    let Answer { record, dealer, wind, .. } = &answer;
    Ok(match fu {
        true => core.say_fu(wish.language, record, *dealer, *wind, wish.buffer),
        false => core.say_score(wish.language, record, *dealer, *wind, wish.buffer),
    })
}

/// The message of what an unfinished hand waits for.
fn of_waits(core: &mut Core, page: &mut Page, wish: &Wish, mut words: Words) -> Result<(Said, Vec<u8>), Bad> {
    let goes_on = words.goes_on("discards");
    let discards = discards(&mut words)?;
    let record = record(&mut words)?;
    let mut asked = Asked::of(core, &mut words, record).map_err(|bad| bad.and(goes_on))?;
    if !asked.is_refused() {
        asked.refusal = core.waits(&asked.bytes, &discards).refusal;
    }
    asked.discards = Some(discards.clone());
    of_asked(page, wish, &asked, || core.say_waits(wish.language, &asked.bytes, &discards, wish.buffer))
}

/// The message of how far an unfinished hand is from ready.
fn of_ready(core: &mut Core, page: &mut Page, wish: &Wish, mut words: Words) -> Result<(Said, Vec<u8>), Bad> {
    let record = record(&mut words)?;
    let mut asked = Asked::of(core, &mut words, record)?;
    if !asked.is_refused() {
        asked.refusal = core.ready(&asked.bytes).refusal;
    }
    of_asked(page, wish, &asked, || core.say_ready(wish.language, &asked.bytes, wish.buffer))
}

/// The unfinished hand, and the message of it; of a record that is refused there is none.
fn of_asked(page: &mut Page, wish: &Wish, asked: &Asked, say: impl FnOnce() -> (Said, Vec<u8>)) -> Result<(Said, Vec<u8>), Bad> {
    if wish.plain {
        asked.plain_head(page)
    } else {
        asked.head(page)
    }
    Ok(if asked.is_refused() { (Said { refusal: asked.refusal.into(), len: 0 }, Vec::new()) } else { say() })
}

/// The message of the scores after a log's last entry, and what is said of the log; for scripts on standard error.
fn of_scores(core: &mut Core, page: &mut Page, wish: &Wish, words: Words) -> Result<(Said, Vec<u8>), Bad> {
    let given = input::log(core, words)?;
    let log = limit::read(&given.bytes);
    let walk = whole(core, log);
    let said: Vec<String> = given.notes.into_iter().chain(stopped(log, &walk)).chain(limit::said(core, &given.bytes)).collect();
    match wish.plain {
        true => said.iter().for_each(|said| eprintln!("tester: {said}")),
        false => given.read.iter().chain(&said).for_each(|said| page.line(said)),
    }
    Ok(core.say_scores(wish.language, &position(&walk), wish.buffer))
}

/// For scripts, the message of a position's scores.
pub fn scores(core: &mut Core, page: &mut Page, language: u8, position: &Position) {
    let (said, clips) = core.say_scores(language, position, MESSAGE_MAX);
    plain(page, language, said, &clips);
}

/// The sentence for a refusal.
fn of_refusal(core: &mut Core, page: &mut Page, wish: &Wish, words: Words) -> Result<(Said, Vec<u8>), Bad> {
    words.no_options()?;
    let number: u8 = match words.texts()[..] {
        [] => return Err(words.bad(0, "the number of a refusal is missing, 0 to 22")),
        [word] => word.parse().map_err(|_| words.bad(0, "a number 0 to 22 is needed (up to 255 to see it refused)"))?,
        _ => return Err(words.bad(1, "one number is enough")),
    };
    match wish.plain {
        true => page.plain("number", [number]),
        false => page.row("number", format!("{number}, {}", refusal(number))),
    }
    Ok(core.say_refusal(wish.language, number, wish.buffer))
}

/// The parts of a message, each with its clips and its words; or why there is none.
fn rows(page: &mut Page, wish: &Wish, said: Said, clips: &[u8]) {
    page.row("language", sheet::named(wish.language));
    if said.refusal != 0 {
        page.row(
            "message",
            match said.refusal {
                13 => format!("refusal 13, the buffer is shorter than the message: {}", count(wish.buffer, "byte")),
                refusal => sentence(refusal as u8, &[]),
            },
        );
        wish.wav.iter().for_each(|target| page.line(format!("\nnothing is said, and {} is not written", target.file)));
        return;
    }
    page.row("message", count(clips.len(), "clip"));
    page.line("");
    let each = parts(clips).into_iter().map(|part| {
        let reading = sheet::reading(wish.language, part).map_or(String::new(), |reading| format!("  ({reading})"));
        vec![numbers(part), format!("{}{reading}", sheet::words(wish.language, part))]
    });
    table(&each.collect::<Vec<_>>(), &[]).iter().for_each(|line| page.line(line));
    wish.wav.iter().for_each(|target| page.line(format!("\nwritten into {}", target.file)));
}

/// Clips as numbers.
pub fn numbers(clips: &[u8]) -> String {
    clips.iter().map(u8::to_string).collect::<Vec<_>>().join(" ")
}

/// The same for scripts.
fn plain(page: &mut Page, language: u8, said: Said, clips: &[u8]) {
    page.plain("language", [language]);
    page.plain("said", [said.refusal, said.len]);
    page.plain("clips", clips);
    if said.refusal == 0 {
        parts(clips).into_iter().for_each(|part| page.plain("words", [sheet::words(language, part)]));
    }
}
