//! Random records and hands through Read, Write, Score, every reading, the slip, both writers of an unfinished hand, Waits, Ready and
//! Judge, and what is said of them.

use archive::same;
use other_scorer::codec::{pack, unpack};
use other_scorer::damage::damaged;
use other_scorer::deal::themed;
use other_scorer::notation::hex::to_hex as hex;
use other_scorer::rng::Rng;
use other_scorer::score;
use other_scorer::vector::make;

use crate::claims;
use crate::readings;
use crate::ready;
use crate::report::Report;
use crate::rotations;
use crate::said;
use crate::slips;
use crate::unfinished;
use crate::waits;

/// Ready is compared for one of so many inputs: the other scorer tries every whole suit.
const READY: usize = 50;

/// The longest buffer lent to Write; a few bytes more are looked at behind it.
const BUFFER: usize = 16;
const BEHIND: usize = 4;

/// In the bytes of a hand: the place of m, and where the concealed tiles begin.
const M: usize = 7;
const MELDS_END: usize = 12;

/// Random bytes.
fn bytes<const N: usize>(rng: &mut Rng) -> [u8; N] {
    [(); N].map(|_| rng.next() as u8)
}

/// A record, dealer and wind, and what they score: mostly the generator's, else bytes or damage.
fn input(rng: &mut Rng, index: usize) -> (Vec<u8>, u8, u8, other_scorer::Scored) {
    let record = match rng.below(10) {
        0 => {
            let length = rng.below(21);
            bytes::<20>(rng)[..length].to_vec()
        }
        1 => {
            let sound = pack(&themed(rng));
            damaged(rng, sound)
        }
        _ => {
            let vector = make(rng, index);
            return (vector.record, vector.dealer, vector.wind, vector.scored);
        }
    };
    let (dealer, wind) = match rng.below(10) {
        0 => (rng.next() as u8, rng.within(0, 1)),
        1 => (rng.within(0, 3), rng.next() as u8),
        _ => (rng.within(0, 3), rng.within(0, 1)),
    };
    let scored = score(&record, dealer, wind);
    (record, dealer, wind, scored)
}

/// A hand for Write: the record's fields, sound or not, or any bytes; half of them with places altered.
fn hand(rng: &mut Rng, record: &[u8]) -> archive::Hand {
    let mut hand = match unpack(record) {
        Ok((hand, _)) => same::hand(&hand),
        Err(_) if rng.percent(50) => same::hand(&themed(rng)),
        Err(_) => {
            let mut any: [u8; 25] = bytes(rng);
            any[M] %= 6;
            archive::Hand::of(any)
        }
    };
    if rng.percent(50) {
        for _ in 0..1 + rng.below(2) {
            hand = altered(rng, hand);
        }
    }
    hand
}

/// A hand with a random value, small or any, in one place.
fn altered(rng: &mut Rng, hand: archive::Hand) -> archive::Hand {
    let any = rng.next() as u8;
    let mut bytes = hand.bytes();
    let at = match rng.below(16) {
        12.. => MELDS_END + rng.below(25 - MELDS_END),
        at => at,
    };
    bytes[at] = rng.pick(&[any, any % 8, any % 36]);
    archive::Hand::of(bytes)
}

/// Compares Write over buffers of every length, to the last byte and behind it.
fn compare_write(report: &mut Report, rng: &mut Rng, hand: &archive::Hand) {
    let before: [u8; BUFFER + BEHIND] = bytes(rng);
    for length in 0..=BUFFER {
        let (mut archive, mut other) = (before, before);
        let got = archive::write(*hand, &mut archive[..length]);
        let wanted = same::write(hand, &mut other[..length]);
        report.count("Write by refusal", wanted.refusal);
        report.same("Write", (got, archive), (wanted, other), || format!("hand {}, buffer of {length}", hex(&hand.bytes())));
    }
}

/// Compares the eleven calls, and the messages of those that have one, for one input.
fn compare(report: &mut Report, rng: &mut Rng, index: usize) {
    let (record, dealer, wind, scored) = input(rng, index);
    let read = archive::read(&record);
    let wanted = same::read(&record);
    report.count("Read by refusal", wanted.refusal);
    report.same("Read", read, wanted, || hex(&record));
    if read.refusal == 0 {
        let mut back = [0; BUFFER];
        let len = archive::write(read.hand, &mut back).len;
        report.same("Read, then Write", &back[..len.min(BUFFER)], &record[..], || hex(&record));
    }

    let wanted = same::scored(&scored);
    report.count("Score by refusal", wanted.refusal);
    wanted.yaku.numbers().iter().for_each(|&n| report.count("Score by yaku", n as u16));
    report.count("Score by readings tried", wanted.tried as u16);
    let items = wanted.items.list();
    (0..10).filter(|&at| items[at] > 0).for_each(|at| report.count("Score by item of fu (0 base to 9 rounding)", at as u16));
    let got = archive::score(&record, dealer, wind);
    let input = || format!("{} dealer {dealer} wind {wind}", hex(&record));
    report.same("Score", got, wanted, input);
    let total = got.items.list().iter().map(|&item| item as u32).sum::<u32>();
    report.same("the sum of the items, and fu", total, got.fu as u32, input);
    if let 0 | 6 | 7 = got.refusal {
        rotations::compare(report, &same::to_other(&read.hand), dealer, wind, &got);
        unfinished::compare_waits(report, &record, read.hand.fields.winning, got.refusal);
    }

    readings::compare(report, &record, dealer, wind, &got);
    slips::compare(report, rng, &record, dealer, wind, &scored);
    claims::compare(report, rng, &record, dealer, wind);
    claims::compare_written(report, rng, &record, dealer, wind);
    said::of_record(report, rng, &record, dealer, wind, &scored);

    let hand = hand(rng, &record);
    compare_write(report, rng, &hand);
    unfinished::compare(report, rng, &record, &hand.held);

    waits::compare(report, rng);
    if index % READY == 0 {
        ready::compare(report, rng);
    }
}

/// Compares so many random inputs.
pub fn run(report: &mut Report, rng: &mut Rng, count: usize) {
    for index in 0..count {
        compare(report, rng, index);
    }
}
