//! Records with one chosen fault, for refusals 2 to 5 (01, Read).

use crate::codec::pack;
use crate::deal::themed;
use crate::record::{Hand, CHI, PON, RON, TSUMO};
use crate::rng::Rng;
use crate::sound::{refusal, situation_faults};
use crate::tiles::starts_run;

/// The number of faults that `record` makes.
pub const FAULTS: usize = 30;

/// A record with a fault: 0 to 9 for refusal 2, to 11 for 3, to 14 for 4, to 24 for 5, then several.
pub fn record(rng: &mut Rng, fault: usize) -> Vec<u8> {
    match fault {
        0..=8 => pack(&bad_field(rng, fault)),
        9 => padding(rng),
        10..=11 => pack(&descending(rng)),
        12..=14 => pack(&five(rng)),
        15..=24 => pack(&bad_situation(rng, fault - 15)),
        _ => pack(&several(rng)),
    }
}

/// A hand with a fault of refusal 2 to 5 and others added, to see the first one reported (01, Read).
fn several(rng: &mut Rng) -> Hand {
    let way = rng.below(9);
    let mut hand = match rng.below(4) {
        0 => bad_field(rng, way),
        1 => descending(rng),
        2 => five(rng),
        _ => bad_situation(rng, way),
    };
    let count = hand.concealed().len();
    match rng.below(3) {
        0 => rng.shuffle(&mut hand.concealed[..count]),
        1 => hand.indicator = rng.pick(&hand.held()),
        _ => {}
    }
    if rng.percent(60) {
        hand.situation = rng.within(0, 4);
        hand.riichi = rng.within(0, 2);
    }
    hand
}

/// A sound hand altered to meet one way of refusal 2 (01, Read).
fn bad_field(rng: &mut Rng, way: usize) -> Hand {
    let mut hand = themed(rng);
    while matches!(way, 2 | 6) && hand.m == 0 {
        hand = themed(rng);
    }
    let over = if rng.percent(30) { 34 } else { rng.within(34, 63) };
    let last = hand.concealed().len() - 1;
    let meld = rng.below(hand.m.max(1) as usize);
    match way {
        0 => hand.indicator = over,
        1 => hand.winning = over,
        2 => {
            hand.melds[meld].tile = over;
            hand.melds[meld].kind = rng.within(PON, 3);
        }
        3 => hand.concealed[last] = over,
        4 => hand.riichi = 3,
        5 => hand.situation = rng.within(5, 7),
        6 => {
            let none: Vec<u8> = (0..34).filter(|&kind| !starts_run(kind)).collect();
            hand.melds[meld].tile = rng.pick(&none);
            hand.melds[meld].kind = CHI;
        }
        7 => {
            hand.how = TSUMO;
            hand.discarder = rng.within(1, 3);
        }
        _ => {
            hand.how = RON;
            hand.discarder = hand.winner;
        }
    }
    hand
}

/// A sound record with padding bits set (01, Read, 2).
fn padding(rng: &mut Rng) -> Vec<u8> {
    let hand = themed(rng);
    let mut record = pack(&hand);
    let width = 8 * record.len() - (103 - 10 * hand.m as usize);
    let bits = 1 + rng.below((1 << width) - 1);
    *record.last_mut().expect("bytes") |= bits as u8;
    record
}

/// A hand whose concealed tiles descend somewhere (01, Read, 3).
fn descending(rng: &mut Rng) -> Hand {
    loop {
        let mut hand = themed(rng);
        let count = hand.concealed().len();
        if rng.percent(50) {
            rng.shuffle(&mut hand.concealed[..count]);
        } else if count > 1 {
            let at = rng.below(count - 1);
            hand.concealed.swap(at, at + 1);
        }
        if refusal(&hand) == 3 {
            return hand;
        }
    }
}

/// A hand with over four of a kind (01, Read, 4).
fn five(rng: &mut Rng) -> Hand {
    loop {
        let mut hand = themed(rng);
        let kind = rng.pick(&hand.held());
        let count = hand.concealed().len();
        match rng.below(5) {
            0 | 1 => hand.indicator = kind,
            2 => hand.winning = kind,
            3 => hand.melds[rng.below(4).min(hand.m.max(1) as usize - 1)].tile = kind,
            _ => {
                let at = rng.below(count);
                let end = (at + rng.below(5)).min(count);
                hand.concealed[at..end].fill(kind);
                hand.concealed[..count].sort();
            }
        }
        if refusal(&hand) == 4 {
            return hand;
        }
    }
}

/// A hand that meets this way of refusal 5 and no other (01, Read, 5).
fn bad_situation(rng: &mut Rng, way: usize) -> Hand {
    loop {
        let mut hand = themed(rng);
        for _ in 0..20 {
            hand.how = rng.pick(&[TSUMO, RON]);
            hand.discarder = if hand.how == RON { (hand.winner + rng.within(1, 3)) % 4 } else { 0 };
            hand.riichi = rng.within(0, 2);
            hand.situation = rng.within(0, 4);
            let faults = situation_faults(&hand);
            let alone = faults[way] && faults.iter().filter(|&&fault| fault).count() == 1;
            if alone && refusal(&hand) == 5 {
                return hand;
            }
        }
    }
}
