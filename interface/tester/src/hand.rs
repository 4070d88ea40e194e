//! `hand`: the record of a hand, its refusal, or h, fu, yaku and who pays what.

use other_scorer::notation::text;
use other_scorer::reading::Reading;
use other_scorer::tiles::dora_after;
use other_scorer::Hand;

use crate::answer::{parts, shape, Answer};
use crate::both::Core;
use crate::names::{yaku, FIRST_YAKUMAN};
use crate::page::Page;
use crate::words::{Bad, Words};
use crate::{fu, payments};

/// The hand's record, and what the core says to it.
pub fn run(core: &mut Core, mut words: Words) -> Result<String, Bad> {
    let plain = words.take_flag("--plain");
    let answer = Answer::of(core, words)?;
    let mut page = Page::default();
    if plain {
        self::plain(&mut page, &answer);
        page.plain("differences", [core.differences.count]);
        return Ok(page.finish());
    }
    answer.head(&mut page);
    if let (0, Some(hand), Some(reported)) = (answer.scored.refusal, answer.hand(), answer.reported()) {
        page.line("");
        page.row("reading", in_words(hand, &reported.reading));
        yaku_rows(&mut page, &answer, hand, &reported.worth);
        fu::rows(&mut page, &answer, hand, &reported.reading);
        payments::rows(&mut page, &answer, hand, reported.worth.basic);
        page.line("");
    }
    page.line(core.verdict());
    Ok(page.finish())
}

/// A reading with its melds, the part that the winning tile completes in brackets.
pub fn in_words(hand: &Hand, reading: &Reading) -> String {
    let (pair, groups) = parts(reading);
    let Reading::Regular { place, .. } = reading else { return shape(reading).into() };
    let own = [vec![pair], groups].concat();
    let marked = own.iter().enumerate().map(|(at, part)| if at == *place { format!("[{part}]") } else { part.clone() });
    let melds = hand.melds().iter().map(|meld| format!("meld {}", text(&meld.tiles())));
    let all: Vec<String> = marked.chain(melds).collect();
    format!("{}, [ ] with the winning tile", all.join(" "))
}

/// The yaku by number and name with their han, the dora, and h.
fn yaku_rows(page: &mut Page, answer: &Answer, hand: &Hand, worth: &archive::Reading) {
    let mut label = "yaku";
    for n in answer.scored.yaku.numbers() {
        let han = if n < FIRST_YAKUMAN { worth.han.0[n].to_string() } else { "yakuman".into() };
        page.figure(label, format!("{n:>2} {}", yaku(n)), han);
        label = "";
    }
    if worth.h > 0 {
        page.figure("", format!("   dora {}", text(&[dora_after(hand.indicator)])), worth.dora);
    }
    page.figure("h", "", answer.scored.h);
}

/// The answer for scripts.
pub fn plain(page: &mut Page, answer: &Answer) {
    answer.plain_head(page);
    let scored = &answer.scored;
    page.plain("h", [scored.h]);
    page.plain("fu", [scored.fu]);
    page.plain("yaku", scored.yaku.numbers());
    if let Some(reported) = answer.reported() {
        page.plain("han", scored.yaku.numbers().iter().map(|&n| reported.worth.han.0[n]));
        page.plain("dora", [reported.worth.dora]);
        page.plain("basic", [reported.worth.basic]);
    }
    page.plain("fu-items", scored.items.list());
    page.plain("tried", [scored.tried]);
    page.plain("changes", scored.changes);
}
