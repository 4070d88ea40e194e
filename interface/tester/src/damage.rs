//! `damage`: damaged copies of a record or a log, their refusals counted, both scorers compared on each.

use archive::Games;
use other_scorer::notation::hex::to_hex;

use crate::both::Core;
use crate::changes::{every, number_of, random, Change, EVERY, RANDOM};
use crate::input::{self, Log};
use crate::limit;
use crate::log::entries;
use crate::names::{count, points};
use crate::page::{table, Page};
use crate::progress::{Kind, Progress};
use crate::refusals::{refusal as in_words, sentence, LAST};
use crate::text;
use crate::walk::{walk, whole, Walk};
use crate::words::{Bad, Words};

/// The number of refusals, 0 for accepted among them.
const REFUSALS: usize = LAST as usize + 1;

/// With more changes than this a word is said before they are tried.
const LOTS: usize = 100_000;

/// What is damaged: a record at a table with what may be meant otherwise, or a log with its walk and what is said of its file and length.
enum Subject {
    Hand { record: Vec<u8>, dealer: u8, wind: u8, said: Vec<String> },
    Log { bytes: Vec<u8>, walk: Walk, said: Vec<String> },
}

/// Of one kind of change: how many were tried, and the refusals met, by number.
struct Count {
    kind: &'static str,
    tried: u64,
    refusals: [u64; REFUSALS],
}

/// Tries the changes of a hand's record or of a log.
pub fn run(core: &mut Core, mut words: Words) -> Result<String, Bad> {
    let (plain, show) = (words.take_flag("--plain"), words.take_flag("--show"));
    let told = match (words.take_flag("--progress"), plain) {
        (true, _) => Kind::Lines,
        (false, true) => Kind::Nothing,
        (false, false) => Kind::Words,
    };
    let number = words.take_number("random", "of changes, such as 1000,", usize::MAX)?;
    let seed = match number {
        Some(_) => words.take_number("seed", "such as 7", u64::MAX)?,
        None => words.take("seed", |_| Err("random=N, the number of changes, is missing".to_string()))?,
    };
    let subject = subject(core, words, plain)?;
    let bytes = subject.bytes();
    let total = number.unwrap_or_else(|| number_of(bytes.len()));
    if total > LOTS && told != Kind::Lines {
        eprintln!("tester: up to {} changes to try; random=N tries N", points(total as i64));
    }
    let changes: Box<dyn Iterator<Item = Change>> = match number {
        Some(number) => Box::new(random(bytes, number, seed.unwrap_or(1))),
        None => Box::new(every(bytes)),
    };
    let kinds = if number.is_some() { &[RANDOM][..] } else { &EVERY };
    let mut counts: Vec<Count> = kinds.iter().map(|kind| Count { kind, tried: 0, refusals: [0; REFUSALS] }).collect();
    let (mut progress, mut shown) = (Progress::new(total, told), Vec::new());
    for change in changes {
        let count = counts.iter_mut().find(|count| count.kind == change.kind).expect("a counted kind");
        count.tried += 1;
        let tried = subject.tried(core, &change);
        for refusal in &tried.refusals {
            // A number that document 01 does not have is a difference, and shown as one.
            if let Some(met) = count.refusals.get_mut(*refusal as usize) {
                *met += 1;
            }
        }
        if show {
            shown.extend(subject.became(&tried, &change).map(|became| Shown::new(&subject, &change, became)));
        }
        progress.step();
    }
    progress.finish();
    Ok(match plain {
        true => plain_page(core, &counts, &shown),
        false => page(core, &subject, &counts, show.then_some(&shown)),
    })
}

/// A damaged copy tried: the refusals met, and a log's walk from the first changed entry on with the number of steps before it.
struct Tried {
    refusals: Vec<u8>,
    walk: Option<(usize, Walk)>,
}

/// An accepted change: its row in words, and its line for scripts.
struct Shown {
    row: Vec<String>,
    line: String,
}

impl Shown {
    fn new(subject: &Subject, change: &Change, became: String) -> Shown {
        let numbers: Vec<String> = change.numbers().iter().map(usize::to_string).collect();
        let line = format!("{} {} {}", change.kind.replace(' ', "-"), numbers.join(" "), to_hex(&change.bytes));
        Shown { row: vec![change.kind.to_string(), change.words(subject.bytes()), became], line }
    }
}

/// The record or log that the words give; for scripts what is said of them is said at once.
fn subject(core: &mut Core, mut words: Words, plain: bool) -> Result<Subject, Bad> {
    let what = words.texts().first().map(|word| word.to_string());
    match what.as_deref() {
        Some("hand") => {
            words.take_first();
            let (dealer, wind) = input::table(&mut words)?;
            let said = at_once(plain, input::notes(&words));
            Ok(Subject::Hand { record: input::record(core, &words)?, dealer, wind, said })
        }
        Some("log") => {
            words.take_first();
            let Log { mut bytes, read, notes, .. } = input::log(core, words)?;
            let said = at_once(plain, notes.into_iter().chain(limit::said(core, &bytes)).collect());
            bytes.truncate(limit::read(&bytes).len());
            let walk = whole(core, &bytes);
            Ok(Subject::Log { bytes, walk, said: read.into_iter().chain(said).collect() })
        }
        _ => Err(words.bad(0, "what is to be damaged: hand and its notation, or log and its file")),
    }
}

/// What is said of a subject; for scripts on standard error too.
fn at_once(plain: bool, said: Vec<String>) -> Vec<String> {
    said.iter().filter(|_| plain).for_each(|said| eprintln!("tester: {said}"));
    said
}

impl Subject {
    /// The bytes before the damage.
    fn bytes(&self) -> &[u8] {
        match self {
            Subject::Hand { record, .. } => record,
            Subject::Log { bytes, .. } => bytes,
        }
    }

    /// Tries a damaged copy: the refusals are Score's; or those of a log's entries from the first changed one on, and 14.
    fn tried(&self, core: &mut Core, change: &Change) -> Tried {
        match self {
            Subject::Hand { dealer, wind, .. } => {
                core.read(&change.bytes);
                Tried { refusals: vec![core.score(&change.bytes, *dealer, *wind).refusal], walk: None }
            }
            Subject::Log { walk: whole, .. } => {
                let before = whole.steps.iter().take_while(|step| step.at <= change.first).count().saturating_sub(1);
                let fresh = (0, Games::fresh(&mut core.differences));
                let (at, games) = whole.steps.get(before).map_or(fresh, |step| (step.at, step.before.clone()));
                let walk = walk(core, limit::read(&change.bytes), at, games);
                let stopped = walk.stopped.map(|_| 14);
                let refusals = walk.steps.iter().map(|step| step.refusal).chain(stopped).collect();
                Tried { refusals, walk: Some((before, walk)) }
            }
        }
    }

    /// What an accepted change made: another hand; or of a log that is read to its end, the first entry that is another, where it is
    /// accepted, with the number of refused ones after it.
    fn became(&self, tried: &Tried, change: &Change) -> Option<String> {
        let (Subject::Log { walk: whole, .. }, Some((before, walk))) = (self, &tried.walk) else {
            return (tried.refusals == [0]).then(|| text::hand(&change.bytes));
        };
        let old = &whole.steps[*before..];
        let same = old.iter().zip(&walk.steps).take_while(|(old, new)| old.entry == new.entry).count();
        let (entry, new) = (before + same + 1, walk.steps.get(same));
        if walk.stopped.is_some() || new.is_some_and(|step| step.refusal != 0) {
            return None;
        }
        let refused = walk.steps.iter().skip(same + 1).filter(|step| step.refusal != 0).count();
        let after = if refused == 0 { String::new() } else { format!(" ({refused} refused after it)") };
        Some(match (old.get(same), new) {
            (Some(old), Some(new)) => format!("entry {entry}, {}, became {}{after}", text::line(&old.entry), text::line(&new.entry)),
            (None, Some(new)) => format!("entry {entry} is new: {}{after}", text::line(&new.entry)),
            (Some(_), None) => format!("the log ends before entry {entry}"),
            (None, None) => "the entries are as they were".into(),
        })
    }

    /// What is damaged, and how it fares whole.
    fn head(&self, core: &mut Core) -> String {
        match self {
            Subject::Hand { record, dealer, wind, said } => {
                let whole = sentence(core.score(record, *dealer, *wind).refusal, &[]);
                lines(said) + &format!("record {}, {}: {whole}", to_hex(record), count(record.len(), "byte"))
            }
            Subject::Log { bytes, walk, said } => {
                let refused = walk.steps.iter().filter(|step| step.refusal != 0).count();
                let end = if walk.stopped.is_some() { ", stopped by 14" } else { "" };
                lines(said) + &format!("log of {}, {}, {refused} refused{end}", count(bytes.len(), "byte"), entries(walk))
            }
        }
    }
}

/// Texts as lines.
fn lines(said: &[String]) -> String {
    said.iter().map(|line| format!("{line}\n")).collect()
}

/// A line for each kind of change, a column for each refusal met; below them the accepted changes, if they are to be shown.
fn page(core: &mut Core, subject: &Subject, counts: &[Count], shown: Option<&Vec<Shown>>) -> String {
    let mut page = Page::default();
    page.line(subject.head(core));
    page.line("");
    let is_met = |refusal: &usize| counts.iter().any(|count| count.refusals[*refusal] > 0);
    let met: Vec<usize> = (0..REFUSALS).filter(is_met).collect();
    let mut heads = vec!["change".to_string(), "tried".to_string()];
    heads.extend(met.iter().map(|refusal| if *refusal == 0 { "accepted".into() } else { refusal.to_string() }));
    let rows = counts.iter().map(|count| {
        let start = vec![count.kind.to_string(), count.tried.to_string()];
        start.into_iter().chain(met.iter().map(|&refusal| count.refusals[refusal].to_string())).collect()
    });
    let rows: Vec<Vec<String>> = [heads].into_iter().chain(rows).collect();
    let right: Vec<usize> = (1..rows[0].len()).collect();
    table(&rows, &right).iter().for_each(|line| page.line(line));
    page.line("");
    if let Subject::Log { .. } = subject {
        page.line("refusals of the entries from the first changed one on; 14 ends a walk");
    }
    for refusal in met.into_iter().filter(|&refusal| refusal > 0) {
        page.line(format!("{refusal:>2} {}", in_words(refusal as u8)));
    }
    if let Some(shown) = shown {
        page.line(format!("\n{} accepted", count(shown.len(), "change")));
        let rows: Vec<Vec<String>> = shown.iter().map(|shown| shown.row.clone()).collect();
        table(&rows, &[]).iter().for_each(|line| page.line(line));
        page.line("");
    }
    page.line(core.verdict());
    page.finish()
}

/// For scripts: kind, number tried, and the count of each refusal from 0 on; then the accepted changes that are to be shown.
fn plain_page(core: &Core, counts: &[Count], shown: &[Shown]) -> String {
    let mut page = Page::default();
    for count in counts {
        page.plain(&count.kind.replace(' ', "-"), [count.tried].into_iter().chain(count.refusals));
    }
    shown.iter().for_each(|shown| page.plain("accepted", [&shown.line]));
    page.plain("differences", [core.differences.count]);
    page.finish()
}
