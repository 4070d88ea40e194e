//! Random entries for the tests.

use other_scorer::codec::{pack, read};
use other_scorer::damage::{damaged, noise};
use other_scorer::deal::{deal, near, on_tile_of, taking, themed};
use other_scorer::fault::{self, FAULTS};
use other_scorer::pao::{DRAGONS, WINDS};
use other_scorer::record::{Hand, LAST_TILE, ORDINARY, RON, TSUMO};
use other_scorer::rng::Rng;
use other_scorer::sound::refusal;
use other_scorer::themes::yakuman::{big_dragons, big_winds, little_winds};
use other_scorer::{Entry, Game, Position};

/// The riichi field that fits a seat's declaration; with under 1,000 at times one though riichi is refused (02, S-11).
fn riichi_field(rng: &mut Rng, position: &Position, seat: u8) -> u8 {
    let no_stick = !position.affords_riichi(seat) && rng.percent(15);
    if position.declared[seat as usize] || no_stick {
        rng.within(1, 2)
    } else {
        0
    }
}

/// A hand as this seat's, with the riichi field that fits the declarations if `fits`; none if it is not sound then.
fn of_seat(rng: &mut Rng, position: &Position, mut hand: Hand, winner: u8, fits: bool) -> Option<Hand> {
    hand.winner = winner;
    if hand.how == RON {
        hand.discarder = (winner + rng.within(1, 3)) % 4;
    }
    if fits {
        hand.riichi = riichi_field(rng, position, winner);
    }
    (refusal(&hand) == 0).then_some(hand)
}

/// A record: mostly a win of this seat that fits the declarations, else anything.
fn record(rng: &mut Rng, position: &Position, winner: u8) -> Vec<u8> {
    let way = rng.below(20);
    match way {
        0 => pack(&near(rng)),
        1 => noise(rng),
        2 => damaged_record(rng),
        3 => {
            let fault = rng.below(FAULTS);
            fault::record(rng, fault)
        }
        4 => pack(&themed(rng)),
        _ => loop {
            let hand = themed(rng);
            if let Some(hand) = of_seat(rng, position, hand, winner, way > 5) {
                return pack(&hand);
            }
        },
    }
}

/// A win with one of the two yaku of pao, or with three wind triplets and a pair; often from the feeder, if one is named.
fn pao_record(rng: &mut Rng, position: &Position, winner: u8, yaku: u8) -> Vec<u8> {
    loop {
        let theme = if yaku == DRAGONS { big_dragons } else { rng.pick(&[big_winds, big_winds, little_winds]) };
        let plan = theme(rng);
        let Some(hand) = deal(rng, &plan).and_then(|hand| of_seat(rng, position, hand, winner, true)) else { continue };
        let feeder = position.feeder(winner, yaku).map(|seat| seat % 4).filter(|&seat| seat != winner);
        let from = feeder.filter(|_| hand.how == RON && rng.percent(40)).unwrap_or(hand.discarder);
        return pack(&Hand { discarder: from, ..hand });
    }
}

/// A sound record damaged.
fn damaged_record(rng: &mut Rng) -> Vec<u8> {
    let whole = pack(&themed(rng));
    damaged(rng, whole)
}

/// A seat, seldom over 3.
fn seat(rng: &mut Rng) -> u8 {
    if rng.percent(3) {
        rng.within(4, 255)
    } else {
        rng.within(0, 3)
    }
}

/// Riichi of a seat, often of one with about 1,000 points (02, S-11).
fn riichi(rng: &mut Rng, position: &Position) -> Entry {
    let near: Vec<u8> = (0..4).filter(|&seat| (0..2000).contains(&position.scores[seat as usize])).collect();
    Entry::Riichi(if near.is_empty() || rng.percent(40) { seat(rng) } else { rng.pick(&near) })
}

/// Riichi of a seat that can declare where another has; where all have, a draw with none of them ready (02, S-7).
fn follow(position: &Position) -> Option<Entry> {
    if position.declared == [true; 4] {
        return Some(Entry::Draw(0));
    }
    let able = (0..4).find(|&seat| !position.declared[seat as usize] && position.affords_riichi(seat));
    able.filter(|_| position.declared.contains(&true)).map(Entry::Riichi)
}

/// A feeder of a holder, often of this seat, and of a yaku, seldom of another than the two.
fn pao(rng: &mut Rng, often: u8) -> Entry {
    let (near, any) = (rng.within(27, 30), rng.next() as u8);
    let yaku = if rng.percent(85) { rng.pick(&[DRAGONS, WINDS]) } else { rng.pick(&[near, any]) };
    let holder = if rng.percent(40) { often } else { seat(rng) };
    Entry::Pao { holder, feeder: seat(rng), yaku }
}

/// A ron of this seat, or of any, that fits the declarations; where feeders are named often of a holder with the yaku.
fn ron(rng: &mut Rng, position: &Position, winner: u8, keep: bool) -> Hand {
    loop {
        let Entry::Win(record) = win(rng, position, winner, keep) else { continue };
        if let Some(hand) = read(&record).ok().filter(|hand| hand.how == RON) {
            return hand;
        }
    }
}

/// One to three rons on one tile that fit the declarations, in any order; with `keep` this seat's among them, if there is one.
fn rons(rng: &mut Rng, position: &Position, winner: u8, keep: bool) -> Vec<Hand> {
    let first = ron(rng, position, winner, keep);
    let others: Vec<u8> = (0..4).filter(|&seat| seat != first.winner && seat != first.discarder).collect();
    let mut hands = vec![first];
    for seat in others {
        while rng.percent(98) && !hands.iter().any(|hand| hand.winner == seat) {
            let riichi = riichi_field(rng, position, seat);
            let named = [DRAGONS, WINDS].into_iter().find(|&yaku| position.feeder(seat, yaku).is_some());
            hands.extend(match named.filter(|_| rng.percent(80)) {
                Some(yaku) => read(&pao_record(rng, position, seat, yaku)).ok().and_then(|hand| taking(hand, &first)),
                None => on_tile_of(rng, &first, seat, riichi),
            });
        }
    }
    rng.shuffle(&mut hands);
    hands.sort_by_key(|hand| keep && hand.winner != winner);
    hands.truncate(1 + rng.below(3));
    rng.shuffle(&mut hands);
    hands
}

/// One of the hands changed in a field that a multiple ron shares, or so that two have one winner, or that one is no ron.
fn spoiled(rng: &mut Rng, hands: &mut [Hand]) {
    let (at, other, kind) = (rng.below(hands.len()), hands[rng.below(hands.len())].winner, rng.within(0, 33));
    let hand = &mut hands[at];
    let before = *hand;
    match rng.below(6) {
        0 => (hand.how, hand.discarder) = (TSUMO, 0),
        1 => hand.winner = other,
        2 => hand.discarder = rng.within(0, 3),
        3 => {
            let held = &mut hand.concealed[..13 - 3 * hand.m as usize];
            std::mem::swap(&mut hand.winning, &mut held[rng.below(held.len())]);
            held.sort();
        }
        4 => hand.indicator = kind,
        _ => hand.situation = if hand.situation == ORDINARY { LAST_TILE } else { ORDINARY },
    }
    if refusal(hand) != 0 && rng.percent(80) {
        *hand = before;
    }
}

/// A multiple ron: mostly one that is booked, else with a wrong number, wrong bytes, a spoiled hand or other records.
fn multi_ron(rng: &mut Rng, position: &Position, winner: u8, keep: bool) -> Entry {
    let mut hands = rons(rng, position, winner, keep);
    let mut number = hands.len() as u8;
    let way = rng.below(20);
    match way {
        0 => number = rng.pick(&[0, 4, 5, 255, number + 1, number - 1]),
        1..=4 => spoiled(rng, &mut hands),
        5 => {
            let at = rng.below(hands.len());
            hands[at].riichi = rng.within(0, 2);
        }
        _ => {}
    }
    let mut records: Vec<Vec<u8>> = hands.iter().map(pack).collect();
    let at = rng.below(records.len());
    match way {
        6 => records[at] = record(rng, position, winner),
        9..=10 => {
            let fault = rng.below(FAULTS);
            records[at] = fault::record(rng, fault);
        }
        7 => {
            let whole = std::mem::take(&mut records[at]);
            records[at] = damaged(rng, whole);
        }
        8 => {
            let mut hand = hands[at];
            let held = &mut hand.concealed[..13 - 3 * hand.m as usize];
            held[rng.below(held.len())] = rng.within(0, 33);
            held.sort();
            records[at] = pack(&hand);
        }
        _ => {}
    }
    let mut records = records.concat();
    match rng.below(30) {
        0 => records.truncate(rng.below(records.len() + 1)),
        1 => records.extend(noise(rng)),
        2 => records = noise(rng),
        _ => {}
    }
    Entry::MultiRon { number, records }
}

/// A win of a seat; where feeders are named often of a holder with the yaku, of this seat alone with `keep`, or of this seat with
/// the yaku of another.
fn win(rng: &mut Rng, position: &Position, winner: u8, keep: bool) -> Entry {
    let all = (0..4).flat_map(|holder| [(holder, DRAGONS), (holder, WINDS)]);
    let is_named = |&(holder, yaku): &(u8, u8)| position.feeder(holder, yaku).is_some() && (holder == winner || !keep);
    let named: Vec<(u8, u8)> = all.filter(is_named).collect();
    if named.is_empty() || rng.percent(40) {
        return Entry::Win(record(rng, position, winner));
    }
    let (holder, yaku) = rng.pick(&named);
    let winner = if rng.percent(10) { winner } else { holder };
    Entry::Win(pao_record(rng, position, winner, yaku))
}

/// A draw, mostly with the declared seats ready; with `keep` mostly the dealer too.
fn draw(rng: &mut Rng, position: &Position, keep: bool) -> Entry {
    let declared = (0..4).filter(|&seat| position.declared[seat]).fold(0, |bits, seat| bits | 8 >> seat);
    let bits = match rng.below(10) {
        0 => rng.next() as u8,
        1..=2 => rng.within(0, 15),
        3 => return Entry::Draw(rng.within(0, 15) & !declared),
        _ => rng.within(0, 15) | declared,
    };
    Entry::Draw(if keep { bits | 8 >> (position.dealer % 4) } else { bits })
}

/// The seat that mostly wins: with `keep` the dealer.
fn often(rng: &mut Rng, position: &Position, keep: bool) -> u8 {
    if keep {
        position.dealer % 4
    } else {
        rng.within(0, 3)
    }
}

/// A random booking; with `keep` mostly one that keeps the deal.
fn booking(rng: &mut Rng, position: &Position, keep: bool) -> Entry {
    let often = often(rng, position, keep);
    if let Some(booking) = follow(position).filter(|_| rng.percent(25)) {
        return booking;
    }
    match rng.below(14) {
        0..=2 => riichi(rng, position),
        3..=5 => win(rng, position, often, keep),
        6 | 12..=13 => multi_ron(rng, position, often, keep),
        7..=8 => draw(rng, position, keep),
        9 => Entry::Chombo(seat(rng)),
        _ => pao(rng, often),
    }
}

/// A correction that carries a random result for a position (02, S-10).
fn correction(rng: &mut Rng, position: &Position, keep: bool) -> Entry {
    let often = often(rng, position, keep);
    let new = match rng.below(10) {
        0..=3 => win(rng, position, often, keep),
        4..=5 => multi_ron(rng, position, often, keep),
        6..=8 => draw(rng, position, keep),
        _ => Entry::Chombo(seat(rng)),
    };
    new.as_correction()
}

/// A random entry; with `keep` mostly one that keeps the deal. Where there is a result to put right often a correction, most often
/// of one that has ended the game, and now and then one where there is none (02, S-10).
pub fn entry(rng: &mut Rng, game: &Game, keep: bool) -> Entry {
    match game.earlier() {
        Some(earlier) if rng.percent(if game.now().over { 40 } else { 20 }) => correction(rng, &earlier, keep),
        None if rng.percent(if game.last().is_none() { 10 } else { 4 }) => correction(rng, game.now(), keep),
        _ => booking(rng, game.now(), keep),
    }
}
