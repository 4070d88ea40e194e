//! `slip`: the slip of a hand, as the core writes it for the counter printer.

use archive::SLIP_LENGTH;

use crate::answer::Answer;
use crate::both::Core;
use crate::names::count;
use crate::page::Page;
use crate::refusals::sentence;
use crate::words::{Bad, Words};

/// The longest page that is lent.
const LONGEST: usize = 65_536;

/// The slip, or why there is none.
pub fn run(core: &mut Core, mut words: Words) -> Result<String, Bad> {
    let plain = words.take_flag("--plain");
    let length = words.take("page", |value| match value.parse() {
        Ok(length) if length <= LONGEST => Ok(length),
        _ => Err(format!("a number 0 to {LONGEST} is needed")),
    })?;
    let length = length.unwrap_or(SLIP_LENGTH);
    let answer = Answer::of(core, words)?;
    let (refusal, bytes) = core.slip(&answer.record, answer.dealer, answer.wind, length);
    let text = String::from_utf8_lossy(&bytes[..length.min(SLIP_LENGTH)]);
    let lines: Vec<&str> = if refusal == 0 { text.lines().collect() } else { Vec::new() };

    let mut page = Page::default();
    if plain {
        answer.plain_head(&mut page);
        page.plain("slip", [refusal]);
        lines.iter().for_each(|line| page.line(line));
        page.plain("differences", [core.differences.count]);
        return Ok(page.finish());
    }
    answer.head(&mut page);
    if refusal != answer.scored.refusal {
        page.row("slip", sentence(refusal, &[count(length, "byte")]));
    }
    if !lines.is_empty() {
        page.line("");
        lines.iter().for_each(|line| page.line(line));
        page.line("");
    }
    page.line(core.verdict());
    Ok(page.finish())
}
