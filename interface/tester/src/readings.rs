//! `readings`: every reading of a hand in document 01's order, the reported one marked, and why the others lose.

use other_scorer::notation::text;
use other_scorer::reading::Reading;
use other_scorer::tiles::dora_after;

use crate::answer::{columns, or_none, parts, shape, Answer, Listed};
use crate::both::Core;
use crate::names::{points, yaku, FIRST_YAKUMAN};
use crate::page::{table, Page};
use crate::words::{Bad, Words};

/// The list of readings, each as the core gives it.
pub fn run(core: &mut Core, mut words: Words) -> Result<String, Bad> {
    let plain = words.take_flag("--plain");
    let answer = Answer::of(core, words)?;
    let mut page = Page::default();
    if plain {
        answer.plain_head(&mut page);
        page.plain("tried", [answer.scored.tried]);
        answer.readings.iter().for_each(|listed| plain_rows(&mut page, listed));
        page.plain("differences", [core.differences.count]);
        return Ok(page.finish());
    }
    answer.head(&mut page);
    page.row("readings", answer.readings.len().to_string());
    if !answer.readings.is_empty() {
        page.line("");
        let heads = ["", "pair", "groups", "place", "yaku", "h", "fu", "gain", ""].map(String::from).to_vec();
        let rows = answer.readings.iter().map(|listed| row(listed, &answer));
        let all: Vec<Vec<String>> = [heads].into_iter().chain(rows).collect();
        table(&all, &[5, 6, 7]).iter().for_each(|line| page.line(line));
        page.line("");
        if legend(&mut page, &answer) {
            page.line("");
        }
    }
    page.line(core.verdict());
    Ok(page.finish())
}

/// The place that the winning tile completes, 0 the pair, then the groups from 1 (01, Readings).
fn place(reading: &Reading) -> String {
    match reading {
        Reading::Regular { place: 0, .. } => "0 pair".into(),
        Reading::Regular { place, .. } => format!("{place} {}", parts(reading).1[place - 1]),
        _ => String::new(),
    }
}

/// Why a reading is reported, or loses to the reported one (01, Readings), or was not tried (02, S-4).
fn verdict(listed: &Listed, answer: &Answer) -> String {
    let worth = &listed.worth;
    let Some(Listed { n, worth: reported, .. }) = answer.reported() else { return "no yaku".into() };
    if listed.n > answer.scored.tried as usize {
        format!("not tried, {n} is a yakuman")
    } else if worth.reported != 0 {
        "REPORTED".into()
    } else if worth.yaku.numbers().is_empty() {
        "no yaku".into()
    } else if worth.gain < reported.gain {
        format!("{} less than {n}", points(reported.gain as i64 - worth.gain as i64))
    } else if worth.h < reported.h {
        format!("same gain as {n}, h {} under {}", worth.h, reported.h)
    } else if worth.fu < reported.fu {
        format!("same gain and h as {n}, fu {} under {}", worth.fu, reported.fu)
    } else {
        format!("equal to {n}, which comes first")
    }
}

/// Numbers with a sign between them, - where there are none.
fn joined(numbers: impl IntoIterator<Item = impl ToString>, between: &str) -> String {
    or_none(numbers.into_iter().map(|number| number.to_string()).collect::<Vec<_>>().join(between))
}

/// A line of the table.
fn row(listed: &Listed, answer: &Answer) -> Vec<String> {
    let Listed { n, reading, worth } = listed;
    let (pair, groups) = parts(reading);
    let groups = if pair.is_empty() { shape(reading).to_string() } else { groups.join(" ") };
    let mark = if worth.reported != 0 { "> " } else { "  " };
    vec![
        format!("{mark}{n:>width$}", width = answer.readings.len().to_string().len()),
        pair,
        groups,
        place(reading),
        joined(worth.yaku.numbers(), " "),
        worth.h.to_string(),
        worth.fu.to_string(),
        points(worth.gain as i64),
        verdict(listed, answer),
    ]
}

/// The names of all yaku in the table with the han that each counts, and the dora; whether there are any.
fn legend(page: &mut Page, answer: &Answer) -> bool {
    let mut rows = Vec::new();
    for n in 1..37 {
        let with = answer.readings.iter().filter(|listed| listed.worth.yaku.0[n] != 0);
        let mut han: Vec<u16> = with.map(|listed| listed.worth.han.0[n]).collect();
        han.sort();
        han.dedup();
        if !han.is_empty() {
            let han = if n < FIRST_YAKUMAN { joined(han, " or ") } else { "yakuman".into() };
            rows.push((format!("yaku {n:>2} {}", yaku(n)), han));
        }
    }
    let dora = answer.readings.iter().map(|listed| listed.worth.dora).max().filter(|&dora| dora > 0);
    if let (Some(hand), Some(dora)) = (answer.hand(), dora) {
        rows.push((format!("dora    {}", text(&[dora_after(hand.indicator)])), dora.to_string()));
    }
    rows.iter().for_each(|(name, han)| page.line(format!("{name:<49}{han:>7}")));
    !rows.is_empty()
}

/// Two lines for scripts: number, shape, pair, groups, place, yaku, h, fu, gain, verdict; and number, han of each yaku, dora, A; - where there is none.
fn plain_rows(page: &mut Page, listed: &Listed) {
    let Listed { n, reading, worth } = listed;
    let [shape, pair, groups, place] = columns(reading);
    let yaku = worth.yaku.numbers();
    let verdict = if worth.reported != 0 { "reported" } else { "loses" };
    let [h, fu, gain] = [worth.h.to_string(), worth.fu.to_string(), worth.gain.to_string()];
    page.plain("reading", [n.to_string(), shape, pair, groups, place, joined(&yaku, ","), h, fu, gain, verdict.into()]);
    let han = joined(yaku.iter().map(|&n| worth.han.0[n]), ",");
    page.plain("worth", [n.to_string(), han, worth.dora.to_string(), worth.basic.to_string()]);
}
