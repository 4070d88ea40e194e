//! Every reading of a record's tiles: how many there are, and each of them by its number.

use archive::{same, Reading, Scored};
use other_scorer::notation::hex::to_hex as hex;
use other_scorer::shown::all;

use crate::report::Report;

/// What a reading and Score have both.
fn figures(reading: &Reading) -> (u16, u8, archive::Items, archive::Yaku, [i32; 4]) {
    (reading.h, reading.fu, reading.items, reading.yaku, reading.changes)
}

/// Compares how many readings there are and each of them, one before the first and one past the last too; then the reported one with Score.
pub fn compare(report: &mut Report, record: &[u8], dealer: u8, wind: u8, scored: &Scored) {
    let other = all(record, dealer, wind);
    let input = || format!("{} dealer {dealer} wind {wind}", hex(record));
    let (got, wanted) = (archive::reading_count(record, dealer, wind), same::reading_count(&other));
    match wanted.refusal {
        0 => report.count("hands by number of readings", wanted.count as u16),
        refusal => report.count("readings by refusal", refusal),
    }
    report.same("the number of readings", got, wanted, input);

    let mut reported = Vec::new();
    let far = [1 << 8, 1 << 16, 1 << 24].map(|more| more + wanted.count.min(1));
    for n in (0..=wanted.count + 1).chain(far).chain([u32::MAX]) {
        let (got, wanted) = (archive::reading(record, dealer, wind, n), same::reading(&other, n));
        report.same("a reading", got, wanted, || format!("{}, reading {n}", input()));
        if wanted.refusal != 0 {
            continue;
        }
        report.count("readings by shape", wanted.shape);
        report.count("readings (0 no yaku, 1 it loses, 2 it is reported)", (wanted.gain > 0) as u16 + wanted.reported as u16);
        if got.yaku.numbers().last() < Some(&26) {
            let listed = got.han.0.iter().sum::<u16>() + got.dora;
            report.same("han listed and dora, and h", listed, got.h, || format!("{}, reading {n}", input()));
        }
        if got.reported != 0 {
            reported.push(figures(&got));
        }
    }
    let wanted = match scored.refusal {
        0 => vec![(scored.h, scored.fu, scored.items, scored.yaku, scored.changes)],
        _ => Vec::new(),
    };
    report.same("the reported readings, and Score", reported, wanted, input);
}
