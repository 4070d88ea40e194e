//! Sound hands keyed from each side of the table, and with each renaming of their suits (02, S-12).

use archive::{same, Scored, RECORD_MAX};
use other_scorer::notation::hex::to_hex as hex;
use other_scorer::rotate::{is_green, moved, renamed, rotated, RENAMINGS};
use other_scorer::Hand;

use crate::report::Report;

/// The record of a hand that is sound by the archive's Write, and its score.
fn score(report: &mut Report, hand: &Hand, dealer: u8, wind: u8) -> (String, Scored) {
    let mut record = [0; RECORD_MAX];
    let written = archive::write(same::hand(hand), &mut record);
    let record = &record[..written.len.min(RECORD_MAX)];
    report.same("a hand rotated or renamed is sound", written.refusal, 0, || format!("{hand:?}"));
    (hex(record), archive::score(record, dealer, wind))
}

/// Compares the scores of a sound hand rotated by 1, 2 and 3 seats and with each of its renamings with its own score.
pub fn compare(report: &mut Report, hand: &Hand, dealer: u8, wind: u8, scored: &Scored) {
    for by in 1..4 {
        let to = moved(dealer, by);
        let (record, got) = score(report, &rotated(hand, by), to, wind);
        report.count("rotated by", by);
        report.same("Score of the rotated hand", got, same::rotated(scored, by), || {
            format!("{record} dealer {to} wind {wind}, rotated by {by}")
        });
    }
    for suits in RENAMINGS {
        let other = renamed(hand, suits);
        let green = is_green(hand) || is_green(&other);
        let (record, got) = score(report, &other, dealer, wind);
        report.count("renamed (1 all green before or after)", green);
        if !green {
            report.same("Score of the renamed hand", same::kept(&got, hand.m), same::kept(scored, hand.m), || {
                format!("{record} dealer {dealer} wind {wind}, suits {suits:?}")
            });
        }
    }
}
