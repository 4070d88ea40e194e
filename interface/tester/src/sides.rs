//! Two hands side by side, and what is promised of the second (02, S-12).

use archive::Scored;
use other_scorer::Hand;

use crate::answer::Answer;
use crate::both::Core;
use crate::hand;
use crate::names::{change, seat_wind, yaku};
use crate::page::{table, Page};

/// The hand as typed and another made from it, with what the page calls that one and what its plain lines begin with.
pub struct Sides {
    pub first: Answer,
    pub second: Answer,
    pub title: String,
    pub key: (&'static str, String),
}

/// The answer to a hand that was made from a sound one.
pub fn answer(core: &mut Core, hand: &Hand, dealer: u8, wind: u8) -> Answer {
    let (written, record) = core.write(hand);
    Answer::to(core, record[..written.len].to_vec(), dealer, wind)
}

/// The page of a hand that is refused before its tiles are read: there is no second one.
pub fn alone(core: &Core, first: &Answer, plain: bool, why: &str) -> String {
    let mut page = Page::default();
    if plain {
        hand::plain(&mut page, first);
        page.plain("differences", [core.differences.count]);
    } else {
        first.head(&mut page);
        page.line(why);
        page.line(core.verdict());
    }
    page.finish()
}

/// Fu as the sum of its items.
fn fu(scored: &Scored) -> String {
    let items: Vec<String> = scored.items.list().iter().filter(|&&item| item > 0).map(u8::to_string).collect();
    if items.len() < 2 {
        scored.fu.to_string()
    } else {
        format!("{} = {}", scored.fu, items.join(" + "))
    }
}

/// The rows of an answer: a label, and no line, one or more below each other.
fn rows(answer: &Answer) -> Vec<(String, Vec<String>)> {
    let scored = &answer.scored;
    let list = scored.yaku.numbers().iter().map(|&n| format!("{n:>2} {}", yaku(n))).collect();
    let accepted = |text: String| if scored.refusal == 0 { vec![text] } else { Vec::new() };
    let head = answer.rows().into_iter().map(|(label, text)| (label.to_string(), vec![text]));
    let no_count = (scored.refusal != 0).then(|| ("tried".to_string(), Vec::new()));
    let figures = [("h", scored.h.to_string()), ("fu", fu(scored))].map(|(label, text)| (label.into(), accepted(text)));
    let seats = (0..4).zip(scored.changes).map(|(seat, moved)| {
        let text = format!("{}{:>9}", seat_wind(seat, answer.dealer), change(moved as i64));
        (format!("seat {seat}"), accepted(text))
    });
    head.chain(no_count).chain([("yaku".into(), list)]).chain(figures).chain(seats).collect()
}

impl Sides {
    /// Both hands, then what is promised.
    pub fn page(&self, core: &Core, plain: bool, promise: &str) -> String {
        let mut page = Page::default();
        if plain {
            hand::plain(&mut page, &self.first);
            page.plain(self.key.0, [&self.key.1]);
            hand::plain(&mut page, &self.second);
            page.plain("differences", [core.differences.count]);
            return page.finish();
        }
        let mut lines = vec![vec![String::new(), "as typed".into(), self.title.clone()]];
        for ((label, first), (_, second)) in rows(&self.first).into_iter().zip(rows(&self.second)) {
            for at in 0..first.len().max(second.len()) {
                let cell = |list: &[String]| list.get(at).cloned().unwrap_or_default();
                let label = if at == 0 { format!("{label:<9}") } else { String::new() };
                lines.push(vec![label, cell(&first), cell(&second)]);
            }
        }
        table(&lines, &[]).iter().for_each(|line| page.line(line));
        self.first.notes(&mut page);
        page.line("");
        page.line(promise);
        page.line(core.verdict());
        page.finish()
    }
}
