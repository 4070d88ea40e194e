//! Both writers of an unfinished hand: from tiles held, sound, altered and any bytes, and from records (02, S-1).

use archive::{same, Held};
use other_scorer::notation::hex::to_hex as hex;
use other_scorer::rng::Rng;

use crate::report::Report;

/// The longest buffer lent; a few bytes more are looked at behind it.
const BUFFER: usize = 13;
const BEHIND: usize = 4;

/// The bytes of tiles held, in the struct's order.
fn bytes(held: &Held) -> Vec<u8> {
    [&[held.m][..], &held.melds, &held.concealed].concat()
}

/// Any tiles held, m up to 5.
fn any(rng: &mut Rng) -> Held {
    Held { m: rng.within(0, 5), melds: [(); 4].map(|_| rng.next() as u8), concealed: [(); 13].map(|_| rng.next() as u8) }
}

/// A random value, small or any, in one place.
fn alter(rng: &mut Rng, held: &mut Held) {
    let value = rng.next() as u8;
    let value = rng.pick(&[value, value % 8, value % 36]);
    match rng.below(18) {
        0 => held.m = value,
        at @ 1..=4 => held.melds[at - 1] = value,
        at => held.concealed[at - 5] = value,
    }
}

/// The tiles held of a hand that was dealt, half of them with places altered; at times any bytes.
fn held(rng: &mut Rng, dealt: &Held) -> Held {
    let mut held = if rng.percent(5) { any(rng) } else { *dealt };
    if rng.percent(50) {
        (0..1 + rng.below(2)).for_each(|_| alter(rng, &mut held));
    }
    held
}

/// Compares both writers over buffers of every length, to the last byte and behind it, and what is then read.
pub fn compare(report: &mut Report, rng: &mut Rng, record: &[u8], dealt: &Held) {
    let before: [u8; BUFFER + BEHIND] = std::array::from_fn(|_| rng.next() as u8);
    let held = held(rng, dealt);
    for length in 0..=BUFFER {
        let (mut archive, mut other) = (before, before);
        let got = archive::write_unfinished(held, &mut archive[..length]);
        let wanted = same::write_unfinished(&held, &mut other[..length]);
        report.count("Write of an unfinished hand by refusal", wanted.refusal);
        report.same("Write of an unfinished hand", (got, archive), (wanted, other), || {
            format!("tiles held {}, buffer of {length}", hex(&bytes(&held)))
        });

        let (mut archive, mut other) = (before, before);
        let got = archive::unfinished(record, &mut archive[..length]);
        let wanted = same::unfinished(record, &mut other[..length]);
        report.count("the unfinished hand of a record by refusal", wanted.refusal);
        report.same("the unfinished hand of a record", (got, archive), (wanted, other), || format!("{}, buffer of {length}", hex(record)));
    }
}

/// Of a record that Score reads: the winning tile is a wait of what is left without it exactly where Score finds a reading.
pub fn compare_waits(report: &mut Report, record: &[u8], winning: u8, refusal: u8) {
    let mut buffer = [0; BUFFER];
    let len = archive::unfinished(record, &mut buffer).len;
    let waits = archive::waits(&buffer[..len.min(BUFFER)], &[]).waits.list().contains(&winning);
    report.count("the winning tile is a wait", waits);
    report.same("the winning tile among the waits, and whether there is a reading", waits, refusal != 6, || hex(record));
}
