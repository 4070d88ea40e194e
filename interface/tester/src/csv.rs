//! A log for a spreadsheet: a row of heads, then a row an entry, with commas between the cells.

use other_scorer::record::RON;
use other_scorer::Entry;

use crate::outcome::{hands, ready, Outcome};
use crate::text;

const HEADS: [&str; 29] = [
    "entry",
    "deal",
    "wind",
    "dealer",
    "kind",
    "seats",
    "how",
    "from",
    "refusal",
    "change 0",
    "change 1",
    "change 2",
    "change 3",
    "score 0",
    "score 1",
    "score 2",
    "score 3",
    "sticks before",
    "counter before",
    "sticks",
    "counter",
    "yaku",
    "h",
    "fu",
    "gain",
    "hands",
    "text",
    "remark",
    "counts",
];

/// A cell; one with a comma or a quotation mark stands in quotation marks.
fn cell(text: &str) -> String {
    match text.contains([',', '"', '\n']) {
        true => format!("\"{}\"", text.replace('"', "\"\"")),
        false => text.into(),
    }
}

/// Cells as a row.
fn row(cells: &[String]) -> String {
    cells.iter().map(|text| cell(text)).collect::<Vec<_>>().join(",") + "\n"
}

/// One cell of what each of several has, in words that no spreadsheet takes for a date.
fn each<T>(list: &[T], one: impl Fn(&T) -> String) -> String {
    list.iter().map(one).collect::<Vec<_>>().join(" and ")
}

/// The kind of a booking by its word in a text, the seats it is about, how it was won, and who discarded or fed.
fn what(outcome: &Outcome) -> [String; 4] {
    let numbers = |list: Vec<usize>| list.iter().map(usize::to_string).collect::<Vec<_>>().join(" ");
    let hands = hands(outcome.booking);
    let (seats, how, from) = match outcome.booking {
        Entry::Riichi(seat) | Entry::Chombo(seat) => (seat.to_string(), "", String::new()),
        Entry::Draw(bits) => (numbers(ready(*bits)), "", String::new()),
        Entry::Pao { holder, feeder, .. } => (holder.to_string(), "", feeder.to_string()),
        _ => match hands.first() {
            Some(first) if first.how == RON => (each(&hands, |hand| hand.winner.to_string()), "ron", first.discarder.to_string()),
            Some(first) => (first.winner.to_string(), "tsumo", String::new()),
            None => Default::default(),
        },
    };
    let line = text::line(&outcome.step.entry);
    let words = if matches!(outcome.step.entry, Entry::Correction(_)) { 2 } else { 1 };
    [line.split(' ').take(words).collect::<Vec<_>>().join(" "), seats, how.into(), from]
}

/// The row of an entry with its number, its deal, its remark and by which entry it is superseded; last whether it counts: accepted, and
/// not superseded.
fn entry(n: usize, deal: &str, outcome: &Outcome, remark: Option<String>, superseded: Option<usize>) -> String {
    let (before, after, wins) = (&outcome.position, &outcome.step.after.archive.now, &outcome.wins);
    let mut cells = vec![n.to_string(), deal.into(), deal[..1].into(), before.dealer.to_string()];
    cells.extend(what(outcome));
    cells.push(outcome.step.refusal.to_string());
    cells.extend(outcome.changes().map(|moved| moved.to_string()));
    cells.extend(after.scores.map(|score| score.to_string()));
    cells.extend([before.sticks, before.counter, after.sticks, after.counter].map(|number| number.to_string()));
    cells.push(each(wins, |win| win.scored.yaku.numbers().iter().map(usize::to_string).collect::<Vec<_>>().join(" ")));
    cells.extend([each(wins, |win| win.scored.h.to_string()), each(wins, |win| win.scored.fu.to_string())]);
    cells.extend([each(wins, |win| win.gain().to_string()), after.hands.to_string()]);
    let by = superseded.map(|by| format!("superseded by entry {by}"));
    let counts = outcome.step.refusal == 0 && by.is_none();
    cells.extend([text::line(&outcome.step.entry), remark.into_iter().chain(by).collect::<Vec<_>>().join("; ")]);
    cells.push(u8::from(counts).to_string());
    row(&cells)
}

/// Of each entry the number of the one that supersedes it.
fn superseded(outcomes: &[Outcome]) -> Vec<Option<usize>> {
    let (mut by, mut last) = (vec![None; outcomes.len()], None);
    for (at, outcome) in outcomes.iter().enumerate().filter(|(_, outcome)| outcome.step.refusal == 0) {
        let wrong: Option<usize> = last.replace(at).filter(|_| matches!(outcome.step.entry, Entry::Correction(_)));
        wrong.into_iter().for_each(|wrong| by[wrong] = Some(at + 1));
    }
    by
}

/// The sheet of a log's entries, each with its deal and remark; where the log stopped, a last row says so.
pub fn sheet(outcomes: &[Outcome], deals: &[String], remarks: Vec<Option<String>>, stopped: Option<String>) -> String {
    let heads = row(&HEADS.map(String::from));
    let entries = outcomes.iter().zip(deals).zip(remarks).zip(superseded(outcomes)).zip(1..);
    let rows = entries.map(|((((outcome, deal), remark), by), n)| entry(n, deal, outcome, remark, by));
    let end = stopped.map(|why| {
        let mut cells = vec![String::new(); HEADS.len()];
        (cells[4], cells[8], cells[27], cells[28]) = ("stopped".into(), "14".into(), why, "0".into());
        row(&cells)
    });
    [heads].into_iter().chain(rows).chain(end).collect()
}
