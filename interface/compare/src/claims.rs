//! Claims for a record: of its readings, with gains right and wrong, altered, damaged, or any bytes.

use archive::{same, CLAIM_MAX};
use other_scorer::claim::{pack, Claim};
use other_scorer::notation::hex::to_hex as hex;
use other_scorer::reading::{Group, Reading};
use other_scorer::rng::Rng;
use other_scorer::score::{best, valued};
use other_scorer::{read, Hand};

use crate::report::Report;

/// So many bytes more are looked at behind a buffer.
const BEHIND: usize = 2;

/// Claims judged for each record.
const EACH: usize = 4;

/// A group, mostly one that is there.
fn group(rng: &mut Rng) -> Group {
    match rng.percent(50) {
        true => Group::Run(rng.within(0, 2) * 9 + rng.within(0, 6)),
        false => Group::Triplet(rng.within(0, 33)),
    }
}

/// A reading with one part altered.
fn altered(rng: &mut Rng, reading: &Reading) -> Reading {
    match reading {
        Reading::Regular { pair, groups, place } => {
            let (mut pair, mut groups, mut place) = (*pair, groups.clone(), *place);
            match rng.below(4) {
                0 => pair = rng.within(0, 35),
                1 => place = rng.below(8),
                2 if !groups.is_empty() => {
                    let at = rng.below(groups.len());
                    groups[at] = group(rng);
                }
                _ => rng.shuffle(&mut groups),
            }
            Reading::Regular { pair, groups, place }
        }
        Reading::SevenPairs => Reading::ThirteenOrphans,
        Reading::ThirteenOrphans => Reading::SevenPairs,
    }
}

/// A claim that is cut, has a byte more, or another bit.
fn damaged(rng: &mut Rng, mut claim: Vec<u8>) -> Vec<u8> {
    match rng.below(5) {
        0 => claim.truncate(rng.below(claim.len())),
        1 => claim.push(rng.pick(&[0, 1, 255])),
        _ => {
            let at = rng.below(claim.len());
            claim[at] ^= 1 << rng.below(8);
        }
    }
    claim
}

/// A claim for a sound hand: one of its readings, or any, with its gain or another reading's, altered or not.
fn of_hand(rng: &mut Rng, hand: &Hand, dealer: u8, wind: u8) -> Vec<u8> {
    let all = valued(hand, dealer, wind);
    let any = Reading::Regular { pair: rng.within(0, 33), groups: (hand.m..4).map(|_| group(rng)).collect(), place: rng.below(5) };
    let other = [any, Reading::SevenPairs, Reading::ThirteenOrphans][rng.below(3)].clone();
    let mut reading = match all.is_empty() || rng.percent(15) {
        true => other,
        false => all[rng.below(all.len())].0.clone(),
    };
    let of = all.iter().find(|(one, _)| *one == reading).or(all.first());
    let right = of.and_then(|(_, value)| *value).map_or(0, |value| value.gain as u32);
    let gain = match rng.below(8) {
        0 => rng.below(131_072) as u32,
        1 => right + 100,
        2 => all[..].last().and_then(|(_, value)| *value).map_or(0, |value| value.gain as u32),
        _ => right,
    };
    if rng.percent(20) {
        reading = altered(rng, &reading);
    }
    let claim = pack(&Claim { reading, gain });
    if rng.percent(15) {
        damaged(rng, claim)
    } else {
        claim
    }
}

/// What is to be claimed, with one part of any value.
fn any_part(rng: &mut Rng, claim: &archive::Claim) -> archive::Claim {
    let mut claim = *claim;
    let any = match rng.percent(50) {
        true => rng.below(70) as u8,
        false => rng.next() as u8,
    };
    match rng.below(8) {
        0 => claim.gain ^= 1 << rng.below(32),
        1 => claim.shape = any % 4,
        2 => claim.pair = any,
        3 => claim.place = any % 8,
        4 => claim.m = any % 8,
        5 => rng.shuffle(&mut claim.groups),
        _ => claim.groups[rng.below(4)] = any,
    }
    claim
}

/// Compares Write claim in a buffer of any length, behind it too; gives the archive's answer and bytes.
fn written(report: &mut Report, rng: &mut Rng, claim: &archive::Claim) -> (archive::Written, Vec<u8>) {
    let length = rng.below(CLAIM_MAX + 2);
    let mut core: Vec<u8> = (0..length + BEHIND).map(|_| rng.next() as u8).collect();
    let mut other = core.clone();
    let got = archive::write_claim(*claim, &mut core[..length]);
    let wanted = same::write_claim(claim, &mut other[..length]);
    report.count("Write claim by refusal", wanted.refusal);
    report.same("Write claim", (got, &core), (wanted, &other), || format!("{claim:?}, buffer of {length}"));
    core.truncate(got.len);
    (got, core)
}

/// Compares Write claim on every reading that is shown of a record, passed on as it is, and with a part of any value; what is written is judged.
pub fn compare_written(report: &mut Report, rng: &mut Rng, record: &[u8], dealer: u8, wind: u8) {
    let Ok(hand) = read(record) else { return };
    for n in 1..=archive::reading_count(record, dealer, wind).count {
        let archive::Reading { gain, shape, pair, groups, place, .. } = archive::reading(record, dealer, wind, n);
        let claim = archive::Claim { gain, shape, pair, groups, place, m: hand.m };
        let (answer, bytes) = written(report, rng, &claim);
        let input = || format!("{} dealer {dealer} wind {wind}, reading {n}", hex(record));
        report.same("a reading passed on (13 or none)", answer.refusal == 0 || answer.refusal == 13, true, input);
        if answer.refusal == 0 {
            let judged = archive::judge(record, &bytes, dealer, wind);
            report.same("Judge on what was written", judged, same::judge(record, &bytes, dealer, wind), input);
            report.same("what was written is a claim", judged.refusal, 0, input);
        }
        for _ in 0..EACH {
            let claim = any_part(rng, &claim);
            written(report, rng, &claim);
        }
    }
}

/// Compares Judge on some claims for a record.
pub fn compare(report: &mut Report, rng: &mut Rng, record: &[u8], dealer: u8, wind: u8) {
    let hand = read(record).ok().filter(|_| dealer < 4 && wind < 2);
    for _ in 0..EACH {
        let claim = match &hand {
            Some(hand) if rng.percent(95) => of_hand(rng, hand, dealer, wind),
            _ => (0..rng.below(10)).map(|_| rng.next() as u8).collect(),
        };
        let wanted = same::judge(record, &claim, dealer, wind);
        match wanted.refusal {
            0 => report.count("Judge by verdict", wanted.verdict),
            refusal => report.count("Judge by refusal", refusal),
        }
        let input = || format!("{} claim {} dealer {dealer} wind {wind}", hex(record), hex(&claim));
        report.same("Judge", archive::judge(record, &claim, dealer, wind), wanted, input);
    }
    if let Some(hand) = hand {
        let all = valued(&hand, dealer, wind);
        let Some(at) = best(&all) else { return };
        let (reading, value) = all[at].clone();
        let claim = pack(&Claim { reading, gain: value.map_or(0, |value| value.gain as u32) });
        let accepted = archive::Judged { refusal: 0, verdict: 0 };
        report.same("the claim of the reported reading", archive::judge(record, &claim, dealer, wind), accepted, || hex(record));
    }
}
