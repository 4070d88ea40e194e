//! `rotate`: a hand keyed from another side of the table, beside the hand as typed.

use archive::same;
use other_scorer::rotate::{moved, rotated};

use crate::answer::Answer;
use crate::both::Core;
use crate::names::count;
use crate::sides::{alone, answer, Sides};
use crate::words::{Bad, Words};

/// Winner, discarder and dealer moved on, both scores, and whether the changes alone have moved on (02, S-12).
pub fn run(core: &mut Core, mut words: Words) -> Result<String, Bad> {
    let plain = words.take_flag("--plain");
    let by: Option<u8> = words.take_number("by", "of seats, such as 1,", u8::MAX)?;
    let missing = words.bad(words.texts().len(), "the number of seats is missing, such as by=1");
    let by = by.ok_or(missing)?;
    let first = Answer::of(core, words)?;
    let Some(hand) = first.sound() else {
        return Ok(alone(core, &first, plain, "a hand that is refused so is not rotated"));
    };
    let second = answer(core, &rotated(hand, by), moved(first.dealer, by), first.wind);
    let wanted = same::rotated(&first.scored, by);
    let holds = core.promised(&format!("Score of the hand rotated by {by}"), second.scored, wanted, &first);
    let seats = count(by as usize, "seat");
    let promise = match holds {
        true => format!("the changes are moved on by {seats}, all else is as it was"),
        false => format!("NOT AS PROMISED: the changes moved on by {seats}, all else as it was"),
    };
    let sides = Sides { first, second, title: format!("rotated by {by}"), key: ("rotated", by.to_string()) };
    Ok(sides.page(core, plain, &promise))
}
