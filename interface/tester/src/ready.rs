//! `ready`: how far an unfinished hand is from ready, with a nearest ready hand and its waits.

use archive::Ready;
use other_scorer::notation::{text, unfinished};
use other_scorer::unfinished::{pack, unpack, Unfinished};

use crate::both::Core;
use crate::names::count;
use crate::page::Page;
use crate::unfinished::{fields, kinds, record, Asked};
use crate::words::{Bad, Words};

/// The tiles of one list that another lacks.
fn lacking(list: &[u8], other: &[u8]) -> Vec<u8> {
    let mut left = other.to_vec();
    let taken = |tile: &u8| left.iter().position(|kind| kind == tile).map(|at| left.remove(at)).is_none();
    list.iter().copied().filter(taken).collect()
}

/// The hand, and the ready hand that the core gives; none where it is refused.
fn pair(bytes: &[u8], answer: &Ready) -> Option<(Unfinished, Unfinished)> {
    let hand = unpack(bytes).ok().map(|(hand, _)| hand).filter(|_| answer.refusal == 0)?;
    Some((hand, Unfinished { concealed: answer.hand, ..hand }))
}

/// The tiles to give away, and those to have for them.
fn swapped(hand: &Unfinished, near: &Unfinished) -> (String, String) {
    (text(&lacking(hand.concealed(), near.concealed())), text(&lacking(near.concealed(), hand.concealed())))
}

/// For scripts, the tiles swapped: out, in.
pub fn plain_swaps(core: &mut Core, page: &mut Page, mut words: Words) -> Result<(), Bad> {
    let asked = Asked::of(core, &mut words, None)?;
    if let Some((hand, near)) = pair(&asked.bytes, &core.ready(&asked.bytes)) {
        let (out, new) = swapped(&hand, &near);
        page.plain("out", [out]);
        page.plain("in", [new]);
    }
    Ok(())
}

/// The swaps and a nearest ready hand, or why there is no answer.
pub fn run(core: &mut Core, mut words: Words) -> Result<String, Bad> {
    let plain = words.take_flag("--plain");
    let record = record(&mut words)?;
    let mut asked = Asked::of(core, &mut words, record)?;
    let answer = if asked.is_refused() { Ready { refusal: asked.refusal, ..Ready::default() } } else { core.ready(&asked.bytes) };
    asked.refusal = answer.refusal;
    let hands = pair(&asked.bytes, &answer);
    let near = hands.map(|(_, near)| near);
    let waits = near.map_or(Vec::new(), |near| core.waits(&pack(&near), &[]).waits.list());

    let mut page = Page::default();
    if plain {
        asked.plain_head(&mut page);
        page.plain("swaps", [answer.swaps]);
        page.plain("ready", near.map(|near| text(near.concealed())));
        page.plain("waits", (!waits.is_empty()).then(|| text(&waits)));
        page.plain("differences", [core.differences.count]);
        return Ok(page.finish());
    }
    asked.head(&mut page);
    if let Some((hand, near)) = hands {
        let (out, new) = swapped(&hand, &near);
        let swaps = count(answer.swaps as usize, "swap");
        page.row("ready", if answer.swaps == 0 { "yes".into() } else { format!("after {swaps}: {out} for {new}") });
        page.row("hand then", unfinished::print(&near).unwrap_or_else(|| fields(&near)));
        page.row("waits then", kinds(&waits));
    }
    page.line("");
    page.line(core.verdict());
    Ok(page.finish())
}
