//! The other scorer's answers in the archive's form.

use std::collections::BTreeMap;

use other_scorer::claim::{code, group, Claim, Fields};
use other_scorer::log::{entry, letter, next, Next};
use other_scorer::reading::Reading;
use other_scorer::record::Meld;
use other_scorer::rotate::moved_changes;
use other_scorer::say::calls::{put, Message};
use other_scorer::shown::{nth, Shown};
use other_scorer::unfinished::{self, Unfinished};
use other_scorer::Entry;

use crate as archive;

/// The pair of a reading that has none, and the code of a group that is not there (docs/STYLE.md, code).
const NO_PAIR: u8 = 34;
const NO_GROUP: u8 = 68;

/// A hand of the other scorer from the archive's form: a meld is 64 times its kind plus its tile.
pub fn to_other(hand: &archive::Hand) -> other_scorer::Hand {
    let [how, winner, discarder, riichi, situation, indicator, winning, m, rest @ ..] = hand.bytes();
    let [a, b, c, d, concealed @ ..] = rest;
    let melds = [a, b, c, d].map(|meld| Meld { kind: meld / 64, tile: meld % 64 });
    other_scorer::Hand { how, winner, discarder, riichi, situation, indicator, winning, m, melds, concealed }
}

/// A hand in the archive's form.
pub fn hand(hand: &other_scorer::Hand) -> archive::Hand {
    let mut bytes = [0; 25];
    bytes[..8].copy_from_slice(&[hand.how, hand.winner, hand.discarder, hand.riichi, hand.situation, hand.indicator, hand.winning, hand.m]);
    bytes[8..12].copy_from_slice(&hand.melds.map(|meld| 64 * meld.kind + meld.tile));
    bytes[12..].copy_from_slice(&hand.concealed);
    archive::Hand::of(bytes)
}

/// What Read should give (01, Read).
pub fn read(record: &[u8]) -> archive::ReadHand {
    match other_scorer::read(record) {
        Ok(sound) => archive::ReadHand { refusal: 0, hand: hand(&sound) },
        Err(refusal) => archive::ReadHand { refusal, hand: archive::Hand::default() },
    }
}

/// What Write should give, with the buffer then (01, Write).
pub fn write(hand: &archive::Hand, buffer: &mut [u8]) -> archive::Written {
    written(other_scorer::write(&to_other(hand), buffer))
}

/// Tiles held in the archive's form.
pub fn held(hand: &Unfinished) -> archive::Held {
    archive::Held { m: hand.m, melds: hand.melds.map(|meld| 64 * meld.kind + meld.tile), concealed: hand.concealed }
}

/// A written length or a refusal in the archive's form.
fn written(answer: Result<usize, u8>) -> archive::Written {
    match answer {
        Ok(len) => archive::Written { refusal: 0, len },
        Err(refusal) => archive::Written { refusal, len: 0 },
    }
}

/// What Write should give of an unfinished hand, with the buffer then (02, S-1; 01, Write).
pub fn write_unfinished(held: &archive::Held, buffer: &mut [u8]) -> archive::Written {
    let melds = held.melds.map(|meld| Meld { kind: meld / 64, tile: meld % 64 });
    written(unfinished::write(&Unfinished { m: held.m, melds, concealed: held.concealed }, buffer))
}

/// And of a record without its winning tile.
pub fn unfinished(record: &[u8], buffer: &mut [u8]) -> archive::Written {
    written(unfinished::from_record(record, buffer))
}

/// The items of fu in the archive's form.
fn items(items: &other_scorer::fu::Items) -> archive::Items {
    archive::Items {
        base: items.base,
        ron: items.closed_ron,
        pair: items.pair,
        group: items.groups,
        wait: items.wait,
        tsumo: items.tsumo,
        rounding: items.rounding,
    }
}

/// A set of yaku in the archive's form.
fn yaku(set: u64) -> archive::Yaku {
    archive::Yaku(std::array::from_fn(|n| (set >> n & 1) as u8))
}

/// What Score should give (01, Score; 02, S-3 and S-4).
pub fn scored(scored: &other_scorer::Scored) -> archive::Scored {
    archive::Scored {
        refusal: scored.refusal,
        h: scored.h as u16,
        fu: scored.fu,
        items: items(&scored.items),
        yaku: yaku(scored.yaku),
        tried: scored.tried,
        changes: scored.changes,
    }
}

/// A reading's shape, pair, groups and place in the archive's form: pair 34 and code 68 where there is none.
fn numbers(reading: &Reading) -> (u8, u8, [u8; 4], u8) {
    match reading {
        Reading::Regular { pair, groups, place } => {
            (0, *pair, std::array::from_fn(|at| groups.get(at).map_or(NO_GROUP, |&group| code(group))), *place as u8)
        }
        Reading::SevenPairs => (1, NO_PAIR, [NO_GROUP; 4], 0),
        Reading::ThirteenOrphans => (2, NO_PAIR, [NO_GROUP; 4], 0),
    }
}

/// A reading of the other scorer from the archive's form; none where the numbers name no reading.
pub fn to_other_reading(reading: &archive::Reading) -> Option<Reading> {
    let archive::Reading { shape, pair, groups, place, .. } = *reading;
    let codes = groups.iter().take_while(|&&code| code != NO_GROUP);
    let named = match shape {
        0 => Reading::Regular { pair, groups: codes.map(|&code| group(code)).collect::<Option<_>>()?, place: place.into() },
        1 => Reading::SevenPairs,
        _ => Reading::ThirteenOrphans,
    };
    let there = match &named {
        Reading::Regular { groups, place, .. } => pair < NO_PAIR && *place <= groups.len(),
        _ => true,
    };
    Some(named).filter(|named| there && numbers(named) == (shape, pair, groups, place))
}

/// What Reading should give, given all readings or the refusal (01, Readings).
pub fn reading(all: &Result<Vec<Shown>, u8>, n: u32) -> archive::Reading {
    let zero = archive::Reading {
        count: 0,
        basic: 0,
        gain: 0,
        changes: [0; 4],
        h: 0,
        dora: 0,
        han: archive::Han([0; 37]),
        refusal: 0,
        shape: 0,
        pair: 0,
        groups: [0; 4],
        place: 0,
        reported: 0,
        fu: 0,
        items: items(&Default::default()),
        yaku: yaku(0),
    };
    match nth(all, n) {
        Err(refusal) => archive::Reading { refusal, ..zero },
        Ok(Shown { reading, value, reported }) => {
            let (shape, pair, groups, place) = numbers(reading);
            archive::Reading {
                count: reading_count(all).count,
                basic: value.basic,
                gain: value.gain as u32,
                changes: value.changes,
                h: value.h.into(),
                dora: value.dora.into(),
                han: archive::Han(value.han.map(u16::from)),
                refusal: 0,
                shape,
                pair,
                groups,
                place,
                reported: *reported as u8,
                fu: value.fu,
                items: items(&value.items),
                yaku: yaku(value.yaku),
            }
        }
    }
}

/// What the call that counts readings should give, given all of them or the refusal (01, Readings).
pub fn reading_count(all: &Result<Vec<Shown>, u8>) -> archive::ReadingCount {
    match all {
        Ok(all) => archive::ReadingCount { count: all.len() as u32, refusal: 0 },
        Err(refusal) => archive::ReadingCount { count: 0, refusal: *refusal },
    }
}

/// What Judge should give (02, S-13).
pub fn judge(record: &[u8], claim: &[u8], dealer: u8, wind: u8) -> archive::Judged {
    let other_scorer::claim::Judged { refusal, verdict } = other_scorer::claim::judge(record, claim, dealer, wind);
    archive::Judged { refusal, verdict }
}

/// What is to be claimed, from the archive's form.
fn claimed(claim: &archive::Claim) -> Fields {
    let archive::Claim { gain, shape, pair, groups, place, m } = *claim;
    Fields { gain, shape, pair, groups, place, m }
}

/// What a claim for a hand with m melds names, in the archive's form.
pub fn claim(claim: &Claim, m: u8) -> archive::Claim {
    let Fields { gain, shape, pair, groups, place, m } = Fields::of(claim, m);
    archive::Claim { gain, shape, pair, groups, place, m }
}

/// What Write claim should give, with the buffer then (02, S-13).
pub fn write_claim(claim: &archive::Claim, buffer: &mut [u8]) -> archive::Written {
    match claimed(claim).write(buffer) {
        Ok(len) => archive::Written { refusal: 0, len },
        Err(refusal) => archive::Written { refusal, len: 0 },
    }
}

/// What Score should give once the table is rotated by so many seats: the changes moved on, nothing else altered (02, S-12).
pub fn rotated(scored: &archive::Scored, by: u8) -> archive::Scored {
    archive::Scored { changes: moved_changes(scored.changes, by), ..*scored }
}

/// What of a score stays when the suits of a hand with m melds are renamed: all of it, but that the reading's groups may stand
/// in another order, so that their items are put in order here (02, S-12).
pub fn kept(scored: &archive::Scored, m: u8) -> archive::Scored {
    let mut kept = *scored;
    kept.items.group[..4 - m as usize].sort();
    kept
}

/// What Waits should give (02, S-1).
pub fn waits(bytes: &[u8], discards: &[u8]) -> archive::Waits {
    let found = other_scorer::waits::find(bytes, discards);
    let mut waits = [0; 34];
    found.waits.iter().for_each(|&kind| waits[kind as usize] = 1);
    archive::Waits { refusal: found.refusal, waits: archive::Kinds(waits), furiten: found.furiten as u8 }
}

/// What Ready should give (02, S-14): the refusal or the number, with the hand given where it is one that may come with it, else none.
pub fn ready(bytes: &[u8], given: &archive::Ready) -> archive::Ready {
    match other_scorer::unfinished::read(bytes) {
        Err(refusal) => archive::Ready { refusal, ..Default::default() },
        Ok(hand) => {
            let swaps = other_scorer::ready::swaps(&hand);
            let such = other_scorer::ready::is_such(&hand, given.hand, swaps);
            archive::Ready { refusal: 0, swaps, hand: if such { given.hand } else { [255; 13] } }
        }
    }
}

/// What Cards should give, with the buffer then (02, S-9).
pub fn cards(suit: u8, size: u8, buffer: &mut [u8]) -> archive::Cards {
    match other_scorer::cards::write(suit, size, buffer) {
        Ok(count) => archive::Cards { refusal: 0, count },
        Err(refusal) => archive::Cards { refusal, count: 0 },
    }
}

/// What a call that says a message should give, with the buffer then (the paper on what the handset says, Calls).
pub fn said(message: &Message, buffer: &mut [u8]) -> archive::Said {
    let (refusal, len) = put(message, buffer);
    archive::Said { refusal: refusal.into(), len }
}

/// A position in the archive's form.
pub fn position(position: &other_scorer::Position) -> archive::Position {
    archive::Position {
        scores: position.scores,
        sticks: position.sticks,
        declared: position.declared.map(u8::from),
        dealer: position.dealer,
        wind: position.wind,
        hands: position.hands,
        over: position.over as u8,
        counter: position.counter,
        feeders: position.feeders,
    }
}

/// A position of the other scorer from the archive's form: a mark that is not 0 is set.
pub fn to_other_position(position: &archive::Position) -> other_scorer::Position {
    other_scorer::Position {
        scores: position.scores,
        sticks: position.sticks,
        declared: position.declared.map(|mark| mark != 0),
        dealer: position.dealer,
        wind: position.wind,
        hands: position.hands,
        over: position.over != 0,
        counter: position.counter,
        feeders: position.feeders,
    }
}

/// The feeder of each holder and yaku that are named: 1 + its seat stands at the holder's place, for yaku 29 four further (02, S-8).
fn named(feeders: &[u8; 8]) -> BTreeMap<(u8, u8), u8> {
    let places = (0u8..).zip(feeders).filter(|(_, &feeder)| feeder > 0);
    places.map(|(place, feeder)| ((place % 4, 28 + place / 4), feeder - 1)).collect()
}

/// A fresh game in the archive's form.
pub fn fresh_game() -> archive::Game {
    let fresh = position(&other_scorer::Position::fresh());
    archive::Game { now: fresh, earlier: fresh, correctable: 0 }
}

/// The earlier position of the archive's game, none where it keeps none (02, S-10).
pub fn earlier(game: &archive::Game) -> Option<archive::Position> {
    (game.correctable != 0).then_some(game.earlier)
}

/// A game of the other scorer from the archive's form.
pub fn to_other_game(game: &archive::Game) -> other_scorer::Game {
    other_scorer::Game::lent(to_other_position(&game.now), earlier(game).as_ref().map(to_other_position))
}

/// What a game should hold after an entry with a refusal, from the game before and the other scorer's position then: a refused one
/// leaves every byte; an accepted one keeps the position before, a correction the earlier one, and marks whether it can be superseded
/// (02, S-10).
pub fn after(before: &archive::Game, entry: &Entry, refusal: u8, other: &other_scorer::Position) -> archive::Game {
    let kept = if let Entry::Correction(_) = entry { before.earlier } else { before.now };
    match refusal {
        0 => archive::Game { now: position(other), earlier: kept, correctable: entry.finishes() as u32 },
        _ => *before,
    }
}

/// The archive's game as a ledger (01, Ledger; 02, S-10).
pub fn ledger(game: &archive::Game) -> other_scorer::Ledger {
    let earlier = earlier(game).map(|earlier| Box::new(ledger_of(&earlier)));
    other_scorer::Ledger { earlier, ..ledger_of(&game.now) }
}

/// The archive's position as a ledger.
fn ledger_of(position: &archive::Position) -> other_scorer::Ledger {
    other_scorer::Ledger {
        scores: position.scores.map(i64::from),
        sticks: position.sticks as i64,
        declared: (0..4).filter(|&seat| position.declared[seat as usize] != 0).collect(),
        dealer: position.dealer,
        wind: position.wind,
        hands: position.hands as u32,
        over: position.over != 0,
        counter: position.counter as i64,
        pao: named(&position.feeders),
        earlier: None,
    }
}

/// What Next entry should give (01, Next entry).
pub fn next_entry(log: &[u8], at: usize) -> archive::NextEntry {
    match next(log, at) {
        Next::Entry { kind, argument, part } => {
            let letter = letter(&entry(kind, argument, part)) as u8;
            archive::NextEntry { refusal: 0, end: 0, kind, argument, letter, length: part.len() }
        }
        Next::End => archive::NextEntry { end: 1, ..archive::NextEntry::default() },
        Next::Bad(refusal) => archive::NextEntry { refusal, ..archive::NextEntry::default() },
    }
}

/// The lines of a log from where a walk stands, each with where the walk then stands (01, Log). The number of an entry
/// has 32 bits; the highest is never reached.
pub fn lines(walk: archive::Walk, log: &[u8]) -> Vec<(String, archive::Walk)> {
    let (mut walk, mut other, mut lines) = (walk, to_other_game(&walk.game), Vec::new());
    while let (Next::Entry { kind, argument, part }, true) = (next(log, walk.at), walk.entry < u32::MAX) {
        let entry = entry(kind, argument, part);
        let refusal = other.book(&entry);
        let ([a, b, c, d], sticks) = (other.now().scores, other.now().sticks);
        let line = format!("{} {} {refusal} {a} {b} {c} {d} {sticks}\n", walk.entry, letter(&entry));
        let game = after(&walk.game, &entry, refusal, other.now());
        walk = archive::Walk { game, entry: walk.entry + 1, at: walk.at + part.len() };
        lines.push((line, walk));
    }
    lines
}
