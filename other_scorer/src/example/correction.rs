//! Scenes of results that are put right (02, S-10).

use super::scene::{named, refused_record, unfit};
use super::script::Script;
use crate::codec::pack;
use crate::deal::on_tile_of;
use crate::entry::Entry::{self, Chombo, Draw, MultiRon, Riichi, Win};
use crate::pao::{self, DRAGONS, WINDS};
use crate::record::{Hand, RON};

/// The results that are put right, and by what, by letters as in `result`.
pub const PAIRS: [(char, char); 12] = [
    ('W', 'F'),
    ('W', 'D'),
    ('W', 'M'),
    ('D', 'W'),
    ('D', 'D'),
    ('D', 'M'),
    ('U', 'D'),
    ('U', 'C'),
    ('C', 'U'),
    ('C', 'W'),
    ('M', 'C'),
    ('M', 'W'),
];

/// The bits of a draw with these seats ready.
fn bits(seats: &[u8]) -> u8 {
    seats.iter().fold(0, |bits, seat| bits | 8 >> seat)
}

/// The records of hands as a multiple ron.
fn multi_ron(hands: &[Hand]) -> Entry {
    MultiRon { number: hands.len() as u8, records: hands.iter().flat_map(pack).collect() }
}

/// A result that the position as it is accepts: a win (W), one that a feeder pays (F), a draw (D), one with no declared child ready (U),
/// a chombo (C) or a multiple ron of two (M); with `keep` the dealer wins or is ready, else children do or are.
fn result(script: &mut Script, kind: char, keep: bool) -> Entry {
    let position = script.position;
    let seats = script.seats(&[position.dealer]);
    let declared: Vec<u8> = (0..4).filter(|&seat| position.declared[seat as usize]).collect();
    let winners = if keep { &seats[..2] } else { &seats[1..3] };
    let from = if keep { seats[2] } else { script.rng.pick(&[seats[0], seats[3]]) };
    let fits = |hand: &Hand| (hand.riichi > 0) == declared.contains(&hand.winner);
    let by_pao =
        |hand: &Hand| pao::yaku(hand, position.dealer, position.wind).is_some_and(|yaku| position.feeder(hand.winner, yaku).is_some());
    match kind {
        'W' => Win(pack(&script.find(winners[0], |hand, scored| scored.refusal == 0 && fits(hand)))),
        'F' => Win(pack(&script.find(winners[0], |hand, scored| scored.refusal == 0 && fits(hand) && by_pao(hand)))),
        'D' if keep => Draw(bits(&[&declared[..], &[position.dealer]].concat())),
        'D' => Draw(bits(&declared)),
        'U' => Draw(if keep { bits(&[position.dealer]) } else { 0 }),
        'C' => Chombo(script.rng.within(0, 3)),
        _ => {
            let first =
                script.find(winners[0], |hand, scored| hand.how == RON && hand.discarder == from && scored.refusal == 0 && fits(hand));
            loop {
                let riichi = declared.contains(&winners[1]) as u8;
                let second = on_tile_of(&mut script.rng, &first, winners[1], riichi);
                if let Some(second) = second.filter(|hand| script.score(hand).refusal == 0) {
                    return multi_ron(&[first, second]);
                }
            }
        }
    }
}

/// A result, after a riichi and a pao of the dealer's, put right at once.
pub fn corrected(script: &mut Script, old: char, new: char) {
    let dealer = script.position.dealer;
    let (child, yaku) = (script.able_first(&[dealer])[1], script.rng.pick(&[DRAGONS, WINDS]));
    let own = new == 'W' && script.position.affords_riichi(dealer);
    script.add(Riichi(if own { dealer } else { child }));
    named(script, dealer, yaku);
    let (old, new) = (result(script, old, false), result(script, new, true));
    script.add(old);
    script.add(new.as_correction());
}

/// A win of a child put right by a draw, that by a chombo, and that by a win of the dealer.
pub fn thrice(script: &mut Script) {
    let old = result(script, 'W', false);
    let corrections = ['D', 'C', 'W'].map(|kind| result(script, kind, true));
    script.add(old);
    for new in corrections {
        script.add(new.as_correction());
    }
}

/// Corrections after a riichi, with an argument over 3 too, and after a pao (refusal 20); then one after refused bookings.
pub fn late(script: &mut Script) {
    let dealer = script.position.dealer;
    script.draw(&[dealer]);
    let seat = script.able_first(&[])[0];
    script.add(Riichi(seat));
    script.add(Draw(15).as_correction());
    script.add(Chombo(9).as_correction());
    script.draw(&[dealer, seat]);
    named(script, seat, WINDS);
    script.add(Draw(15).as_correction());
    script.draw(&[dealer]);
    script.add(Riichi(11));
    let record = refused_record(script, 7);
    script.add(Win(record));
    script.add(Draw(bits(&[dealer, seat])).as_correction());
}

/// A draw with a declared seat ready; corrections of it that the earlier position refuses, 11 for what the position that stands would
/// accept; and one that it accepts.
pub fn refused(script: &mut Script) {
    let dealer = script.position.dealer;
    let seat = script.able_first(&[])[0];
    script.add(Riichi(seat));
    script.draw(&[dealer, seat]);
    for number in 2..=7 {
        let record = refused_record(script, number);
        script.add(Win(record).as_correction());
    }
    script.add(Chombo(4).as_correction());
    let silent = script.find(seat, |hand, scored| scored.refusal == 0 && hand.riichi == 0);
    script.add(Win(pack(&silent)).as_correction());
    let hands = unfit(script, 1);
    script.add(multi_ron(&hands).as_correction());
    script.add(Chombo(seat).as_correction());
}

/// The draw that has ended the game put right by a chombo: play goes on, unless 200 hands are finished, until a draw with a declared
/// seat ready ends it again; that is put right too, and by a draw again, so that the game ends with a stick as before.
pub fn at_the_end(script: &mut Script) {
    let (dealer, earlier) = (script.position.dealer, script.earlier());
    let declared = earlier.and_then(|position| (0..4).find(|&seat| position.declared[seat as usize]));
    let mut ready = declared.unwrap_or((dealer + 1) % 4);
    script.add(Chombo(ready).as_correction());
    if script.position.is_open() {
        ready = script.able_first(&[dealer])[1];
        script.add(Riichi(ready));
        script.add(Draw(0).as_correction());
        script.draw(&[ready]);
    }
    for new in [Chombo(ready), Draw(bits(&[ready]))] {
        script.add(new.as_correction());
    }
}
