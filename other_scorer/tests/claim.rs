//! Claims (02, S-13), by hand and of random hands.

use other_scorer::claim::{judge, pack, parse, Claim, Fields, Judged};
use other_scorer::codec;
use other_scorer::deal::themed;
use other_scorer::notation::hex::{from_hex, to_hex};
use other_scorer::notation::parse as notation;
use other_scorer::reading::{Group, Reading};
use other_scorer::rng::Rng;
use other_scorer::score::{best, valued};

/// The record of a hand in notation.
fn record(line: &str) -> Vec<u8> {
    codec::pack(&notation(&line.split(' ').collect::<Vec<_>>()).expect("notation"))
}

/// The refusal and the verdict of a claim in hexadecimal digits, dealer 0, East.
fn judged(hand: &str, claim: &str) -> (u8, u8) {
    let claim = if claim.is_empty() { Vec::new() } else { from_hex(claim).expect("digits") };
    let Judged { refusal, verdict } = judge(&record(hand), &claim, 0, 0);
    (refusal, verdict)
}

const LINE_5: &str = "112233m778899p5s+5s seat=1 ron=3";
const LINE_7: &str = "456p78s234s99p+9s chi=123m seat=1 ron=3";

#[test]
fn each_verdict() {
    for (hand, claim, verdict) in [
        (LINE_5, "16000078f01450", 0),
        (LINE_5, "16000078f21450", 1),
        (LINE_7, "11184cc301f400", 2),
        (LINE_5, "40d480", 3),
        (LINE_5, "40c800", 4),
        (LINE_5, "80c800", 1),
        (LINE_7, "40c800", 1),
    ] {
        assert_eq!(judged(hand, claim), (0, verdict), "{claim}");
    }
}

#[test]
fn equal_gains_are_accepted() {
    let hand = "11222333m456p99s+1m seat=1 ron=3";
    let groups = [0, 0, 0, 12].map(Group::Run).to_vec();
    for place in 1..=3 {
        let claim = Claim { reading: Reading::Regular { pair: 26, groups: groups.clone(), place }, gain: 2000 };
        assert_eq!(judged(hand, &to_hex(&pack(&claim))), (0, 0));
    }
}

#[test]
fn each_fault() {
    for (claim, fault) in [
        ("", 0),
        ("16000078f014", 0),
        ("40c8", 0),
        ("c0c800", 1),
        ("22000078f01450", 2),
        ("16000079001450", 3),
        ("16003c00f01450", 4),
        ("16000078fa1450", 5),
        ("40c801", 6),
        ("40c810", 6),
    ] {
        let bytes = if claim.is_empty() { Vec::new() } else { from_hex(claim).expect("digits") };
        assert_eq!(parse(&bytes, 0), Err(fault), "{claim}");
        assert_eq!(judged(LINE_5, claim), (22, 0), "{claim}");
    }
    assert_eq!(judge(&record(LINE_5), &[], 4, 0).refusal, 8);
    assert_eq!(judge(&record(LINE_5)[..12], &[], 0, 0).refusal, 1);
}

#[test]
fn every_reading_there_and_back() {
    let mut rng = Rng::new(13);
    let mut accepted = 0;
    for _ in 0..20_000 {
        let hand = themed(&mut rng);
        let (record, dealer, wind) = (codec::pack(&hand), rng.within(0, 3), rng.within(0, 1));
        if codec::read(&record).is_err() {
            continue;
        }
        let all = valued(&hand, dealer, wind);
        for (reading, value) in &all {
            let gain = value.map_or(0, |value| value.gain as u32);
            let claim = Claim { reading: reading.clone(), gain };
            let bytes = pack(&claim);
            let mut buffer = [0x5a; 8];
            assert_eq!(Fields::of(&claim, hand.m).write(&mut buffer), Ok(bytes.len()));
            assert!(buffer[..bytes.len()] == bytes && buffer[bytes.len()..].iter().all(|&byte| byte == 0x5a));
            assert_eq!(parse(&bytes, hand.m), Ok(claim));
            let judged = judge(&record, &bytes, dealer, wind);
            let most = best(&all).and_then(|at| all[at].1).map(|value| value.gain);
            let wanted = match value.map(|value| value.gain) {
                None => 2,
                gain if gain < most => 4,
                _ => 0,
            };
            accepted += (wanted == 0) as usize;
            assert_eq!(judged, Judged { refusal: 0, verdict: wanted });
        }
    }
    assert!(accepted > 1000);
}

#[test]
fn written_or_refused() {
    let five = Fields { gain: 5200, shape: 0, pair: 22, groups: [0, 0, 15, 15], place: 0, m: 0 };
    let three = Fields { gain: 12000, shape: 0, pair: 27, groups: [52, 68, 68, 68], place: 1, m: 3 };
    let pairs = Fields { gain: 1600, shape: 1, pair: 34, groups: [68; 4], place: 0, m: 0 };
    let write = |given: Fields, length: usize| {
        let mut buffer = vec![0x5a; length];
        (given.write(&mut buffer), buffer)
    };
    assert_eq!(write(five, 8), (Ok(7), vec![22, 0, 0, 120, 240, 20, 80, 0x5a]));
    assert_eq!(write(three, 5), (Ok(5), vec![27, 104, 69, 220, 0]));
    assert_eq!(write(pairs, 3), (Ok(3), vec![64, 200, 0]));
    assert_eq!(write(Fields { m: 4, ..pairs }, 3), (Ok(3), vec![64, 200, 0]));
    assert_eq!(write(Fields { gain: 131_071, ..pairs }, 3), (Ok(3), vec![127, 255, 224]));
    for (given, length) in [(five, 6), (three, 4), (pairs, 2), (pairs, 0)] {
        assert_eq!(write(given, length), (Err(13), vec![0x5a; length]), "{given:?}");
    }
    for given in [
        Fields { shape: 3, ..pairs },
        Fields { shape: 4, ..five },
        Fields { shape: 0, ..pairs },
        Fields { shape: 1, ..five },
        Fields { pair: 33, ..pairs },
        Fields { place: 1, ..pairs },
        Fields { groups: [68, 68, 68, 0], ..pairs },
        Fields { pair: 34, ..five },
        Fields { pair: 64, ..five },
        Fields { groups: [0, 15, 0, 15], ..five },
        Fields { groups: [0, 0, 15, 16], ..five },
        Fields { groups: [0, 0, 15, 68], ..five },
        Fields { groups: [0, 0, 15, 128], ..five },
        Fields { groups: [52, 53, 68, 68], ..three },
        Fields { groups: [68; 4], ..three },
        Fields { place: 5, ..five },
        Fields { place: 8, ..five },
        Fields { place: 2, ..three },
        Fields { gain: 131_072, ..five },
        Fields { gain: 131_072, ..pairs },
        Fields { gain: u32::MAX, ..three },
        Fields { m: 1, ..five },
        Fields { m: 2, ..three },
        Fields { m: 4, ..three },
        Fields { m: 5, ..pairs },
        Fields { m: 255, ..pairs },
    ] {
        for length in 0..9 {
            assert_eq!(write(given, length), (Err(22), vec![0x5a; length]), "{given:?}");
        }
    }
}
