//! What the handset says: the six calls in every language, languages that there are not among them, and in buffers of many lengths.

use archive::{same, Said, MESSAGE_MAX};
use other_scorer::notation::hex::to_hex as hex;
use other_scorer::rng::Rng;
use other_scorer::say::calls::{self, Message};
use other_scorer::Scored;

use crate::logs::{any_bytes, any_position};
use crate::report::Report;

/// So many bytes more are looked at behind a buffer.
const BEHIND: usize = 4;

/// The keys 0 to 5: the four languages, and one on each side.
const KEYS: u8 = 5;

/// The length of a buffer for so many clips: so many, one fewer, one more, as many as any message needs, or any.
fn length(rng: &mut Rng, clips: usize) -> usize {
    match rng.below(8) {
        0 => clips.saturating_sub(1),
        1 => clips + 1,
        2 => rng.below(MESSAGE_MAX + 50),
        3 => rng.below(clips + 1),
        4 | 5 => MESSAGE_MAX,
        _ => clips,
    }
}

/// Compares a message in a buffer, to the last byte and behind it; no message is longer than the header says.
fn compare(report: &mut Report, rng: &mut Rng, what: &str, wanted: &Message, call: impl Fn(&mut [u8]) -> Said, input: &dyn Fn() -> String) {
    let clips = wanted.as_ref().map_or(0, Vec::len);
    let length = length(rng, clips);
    let mut archive: Vec<u8> = (0..length + BEHIND).map(|_| rng.next() as u8).collect();
    let mut other = archive.clone();
    let got = call(&mut archive[..length]);
    let wanted = same::said(wanted, &mut other[..length]);
    report.count("messages by refusal", wanted.refusal);
    report.same(what, (got, archive), (wanted, other), || format!("{}, buffer of {length}", input()));
    report.same("a message over the longest", clips > MESSAGE_MAX, false, input);
}

/// Compares the Score and the Fu message of a record that scores so.
pub fn of_record(report: &mut Report, rng: &mut Rng, record: &[u8], dealer: u8, wind: u8, scored: &Scored) {
    for key in 0..=KEYS {
        let input = || format!("{} dealer {dealer} wind {wind} language {key}", hex(record));
        let wanted = calls::score(key, record, dealer, scored);
        compare(report, rng, "a Score message", &wanted, |buf| archive::say_score(key, record, dealer, wind, buf), &input);
        let wanted = calls::fu(key, scored);
        compare(report, rng, "a Fu message", &wanted, |buf| archive::say_fu(key, record, dealer, wind, buf), &input);
    }
}

/// Compares the Waits message of an unfinished hand's bytes with discards.
pub fn of_waits(report: &mut Report, rng: &mut Rng, bytes: &[u8], discards: &[u8]) {
    for key in 0..=KEYS {
        let input = || format!("{} discards {} language {key}", hex(bytes), hex(discards));
        let wanted = calls::waits(key, bytes, discards);
        compare(report, rng, "a Waits message", &wanted, |buf| archive::say_waits(key, bytes, discards, buf), &input);
    }
}

/// Compares the Ready message of an unfinished hand's bytes: many hands may be as near, but the number is one.
pub fn of_ready(report: &mut Report, rng: &mut Rng, bytes: &[u8]) {
    for key in 0..=KEYS {
        let input = || format!("{} language {key}", hex(bytes));
        let wanted = calls::ready(key, bytes);
        compare(report, rng, "a Ready message", &wanted, |buf| archive::say_ready(key, bytes, buf), &input);
    }
}

/// A number with its high bits, its low digits or its high digits alone.
fn fewer(rng: &mut Rng, number: u32) -> u32 {
    let ten = 10u32.pow(rng.below(10) as u32);
    match rng.below(3) {
        0 => number >> rng.below(32),
        1 => number % ten,
        _ => number / ten * ten,
    }
}

/// A position of any state or of any bytes; its numbers with fewer digits or with zeros in them at times.
fn position(rng: &mut Rng) -> archive::Position {
    let mut position = if rng.percent(50) { any_position(rng) } else { any_bytes(rng) };
    if rng.percent(60) {
        position.scores = position.scores.map(|score| score.signum().wrapping_mul(fewer(rng, score.unsigned_abs()) as i32));
        (position.sticks, position.counter) = (fewer(rng, position.sticks), fewer(rng, position.counter));
    }
    position
}

/// Compares the Scores message of so many positions, and the sentence for every number in every language that a byte names.
pub fn run(report: &mut Report, rng: &mut Rng, count: usize) {
    for _ in 0..count {
        let position = position(rng);
        let other = same::to_other_position(&position);
        for key in 0..=KEYS {
            let input = || format!("{position:?} language {key}");
            compare(report, rng, "a Scores message", &calls::scores(key, &other), |buf| archive::say_scores(key, &position, buf), &input);
        }
    }
    for key in 0..=u8::MAX {
        for number in 0..=u8::MAX {
            let input = || format!("number {number} language {key}");
            let wanted = calls::refusal(key, number);
            compare(report, rng, "a Refusal message", &wanted, |buf| archive::say_refusal(key, number, buf), &input);
        }
    }
}
