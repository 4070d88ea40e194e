//! Scenes of an example log; each starts and ends with no seat declared and no feeder named (01, The game; 02, S-6 to S-8, S-10
//! and S-11).

use super::correction;
use super::script::Script;
use crate::codec::{length, pack, read};
use crate::deal::{drawn, near, on_tile_of};
use crate::entry::Entry::{Chombo, Draw, MultiRon, Pao, Riichi, Win};
use crate::fault::{self, FAULTS};
use crate::multi_ron;
use crate::pao::{self, DRAGONS, WINDS};
use crate::record::{Hand, LAST_TILE, ORDINARY, RON, TSUMO};
use crate::score::Scored;
use crate::sound::refusal;

/// Whose tile a win takes that a feeder pays.
#[derive(Clone, Copy, Debug, PartialEq, Eq)]
pub enum From {
    Wall,
    Feeder,
    Another,
}

/// A scene that keeps the deal.
#[derive(Clone, Copy, Debug)]
pub enum Scene {
    /// A win of the dealer with this yaku.
    Yaku(u8),
    /// A win of the dealer with so many melds.
    Melds(u8),
    /// A win of the dealer with a meld of this kind.
    MeldKind(u8),
    /// A win of the dealer with h from low to high.
    Han(u8, u8),
    /// A win refused with 2 to 7.
    Refused(u8),
    /// A draw with so many ready, the dealer among them.
    Draw(u8),
    /// A chombo with so many declared, by a declared seat if there is one, or by another.
    Chombo(u8, bool),
    /// A draw in which so many declared seats are not ready: a chombo of each (02, S-7).
    Unready(u8),
    /// A win of the dealer with this yaku, paid by pao (02, S-8).
    Pao(u8, From),
    /// A win of the dealer with three wind triplets and a pair, named for four.
    ThreeWinds,
    /// A win of the dealer with a yaku that another holder is named for.
    OtherHolder,
    /// A win of the dealer with one of the two yaku, named for the other.
    OtherYaku,
    /// A holder and yaku named twice, and a holder as the feeder (refusal 18).
    PaoTwice,
    /// A feeder named, the hand's end by a win, a draw, a draw with a seat that is not ready (U) or a chombo; then that win.
    Lapsed(char),
    /// A multiple ron of so many, the dealer's among them (02, S-6).
    MultiRon(u8),
    /// Rons of the dealer, paid by pao, and another: from the feeder, from another, or with the feeder as the other winner.
    MultiRonPao(u8),
    /// Two hands that make no multiple ron, in this way of `multi_ron::FAULTS` (refusal 17).
    MultiRonUnfit(usize),
    /// Two rons, one of which is refused with 2 to 7 or 11.
    MultiRonRefused(u8),
    /// A result of one kind, which passes the deal if it can, put right by one of another, which keeps it: a win, a draw, a draw with a
    /// declared seat that is not ready (U), a chombo, a multiple ron, or a win that a feeder pays (F) (02, S-10).
    Corrected(char, char),
    /// A result put right three times (02, S-10).
    CorrectedTwice,
    /// Corrections after a riichi and after a pao (refusal 20), and one after refused bookings (02, S-10).
    CorrectedLate,
    /// Corrections refused with 2 to 8, 11 and 17 (02, S-10).
    CorrectionRefused,
    /// Sticks carried over two draws, a draw with a seat that is not ready and a chombo to a win.
    Carried,
    /// Riichi and chombo with an argument over 3 (refusal 8).
    Seat,
    /// Riichi twice in a hand (refusal 10).
    Again,
    /// A riichi field without riichi (refusal 11).
    Undeclared,
    /// Riichi without a riichi field (refusal 11).
    Silent,
    /// Refusals 7 and 11 at once: 7 comes first.
    NoYaku,
    /// At the start of a game: riichi of the dealer with 1,000 exactly, again with none left (refusal 10, before 21), in the next hand
    /// (refusal 21), wins with riichi marked all the same (refusal 11) and without (02, S-11).
    LastStick,
    /// Riichi of a seat with under 1,000 (refusal 21), and wins with riichi marked all the same (refusal 11) (02, S-11).
    NoStick,
}

/// Any accepted win.
fn any(_: &Hand, _: &Scored) -> bool {
    true
}

impl Scene {
    /// The scene's place in a game whose seats soon have too few points to declare: the more of them declare, and the fewer points
    /// the scene moves, the earlier (02, S-11).
    pub fn rank(&self) -> u8 {
        match self {
            Scene::LastStick => 0,
            Scene::Unready(4..) | Scene::Chombo(4.., _) => 1,
            Scene::Unready(_) | Scene::Chombo(1.., _) | Scene::Draw(_) => 2,
            Scene::Carried | Scene::Corrected('U', _) | Scene::Corrected(_, 'U') => 3,
            Scene::MultiRon(3) => 4,
            Scene::MultiRon(2) | Scene::Lapsed('U') => 5,
            Scene::Pao(_, From::Wall | From::Feeder) | Scene::Yaku(10 | 11) => 6,
            Scene::Corrected(..) | Scene::CorrectedLate | Scene::CorrectionRefused => 6,
            _ => 7,
        }
    }

    /// Whether the scene is of no use where seats have too few points to declare, or is in many others.
    pub fn is_once(&self) -> bool {
        let early = matches!(self, Scene::Unready(3..) | Scene::Chombo(3.., _) | Scene::Carried | Scene::Yaku(10 | 11));
        early || matches!(self, Scene::Melds(_) | Scene::MeldKind(_) | Scene::Han(..))
    }

    /// Adds the scene's entries.
    pub fn play(self, script: &mut Script) {
        let dealer = script.position.dealer;
        match self {
            Scene::Yaku(n) => {
                if n == 10 || n == 11 {
                    script.fund_dealer();
                }
                script.win(dealer, |_, scored| scored.yaku >> n & 1 == 1)
            }
            Scene::Melds(m) => script.win(dealer, |hand, _| hand.m == m),
            Scene::MeldKind(kind) => script.win(dealer, |hand, _| hand.melds().iter().any(|meld| meld.kind == kind)),
            Scene::Han(low, high) => script.win(dealer, |_, scored| (low..=high).contains(&scored.h)),
            Scene::Refused(number) => refused(script, number),
            Scene::Draw(count) => draw(script, count as usize),
            Scene::Chombo(count, own) => chombo(script, count as usize, own),
            Scene::Unready(count) => unready(script, count as usize),
            Scene::Pao(yaku, from) => pao(script, dealer, yaku, from),
            Scene::ThreeWinds => {
                named(script, dealer, WINDS);
                let wind = script.position.wind;
                script.win(dealer, |hand, scored| scored.yaku >> WINDS & 1 == 1 && pao::yaku(hand, dealer, wind).is_none());
            }
            Scene::OtherHolder => {
                let (child, yaku) = (script.child(), script.rng.pick(&[DRAGONS, WINDS]));
                named(script, child, yaku);
                with_pao_yaku(script, dealer, yaku, |_| true);
            }
            Scene::OtherYaku => {
                let yaku = script.rng.pick(&[DRAGONS, WINDS]);
                named(script, dealer, DRAGONS + WINDS - yaku);
                with_pao_yaku(script, dealer, yaku, |_| true);
            }
            Scene::PaoTwice => pao_twice(script),
            Scene::Lapsed(by) => lapsed(script, by),
            Scene::MultiRon(number) => multi_ron(script, number as usize),
            Scene::MultiRonPao(way) => multi_ron_pao(script, way),
            Scene::MultiRonUnfit(fault) => multi_ron_unfit(script, fault),
            Scene::MultiRonRefused(number) => multi_ron_refused(script, number),
            Scene::Corrected(old, new) => correction::corrected(script, old, new),
            Scene::CorrectedTwice => correction::thrice(script),
            Scene::CorrectedLate => correction::late(script),
            Scene::CorrectionRefused => correction::refused(script),
            Scene::Carried => carried(script),
            Scene::Seat => {
                let over = script.rng.within(4, 15);
                script.add(Riichi(over));
                script.add(Chombo(19 - over));
            }
            Scene::Again => {
                let seat = script.able_first(&[])[0];
                script.add(Riichi(seat));
                script.add(Riichi(seat));
                script.draw(&[dealer, seat]);
            }
            Scene::Undeclared => {
                let seat = script.rng.within(0, 3);
                undeclared(script, seat);
            }
            Scene::Silent => silent(script, 0),
            Scene::NoYaku => silent(script, 7),
            Scene::LastStick => last_stick(script),
            Scene::NoStick => {
                let seat = script.by_score()[3];
                while script.position.is_open() && script.position.affords_riichi(seat) {
                    script.add(Chombo(seat));
                }
                no_stick(script, seat);
            }
        }
    }
}

/// A win with a riichi field of a seat that has not declared.
fn undeclared(script: &mut Script, seat: u8) {
    let hand = script.find(seat, |hand, scored| scored.refusal == 0 && hand.riichi > 0);
    script.add(Win(pack(&hand)));
}

/// Riichi of a seat with under 1,000, then a win of it and a multiple ron with its win, riichi marked in both (02, S-11).
fn no_stick(script: &mut Script, seat: u8) {
    script.add(Riichi(seat));
    undeclared(script, seat);
    let seats = script.seats(&[seat]);
    loop {
        let mut hands = script.hands(&seats[..2], seats[2], |_| true);
        hands[0].riichi = 1;
        if hands[1].riichi == 0 && refusal(&hands[0]) == 0 {
            script.multi_ron(&hands, false);
            return;
        }
    }
}

/// Chombos and riichi of the dealer in a fresh game until it has 1,000, and its last riichi; then one with nothing left (02, S-11).
fn last_stick(script: &mut Script) {
    let dealer = script.position.dealer;
    for _ in 0..3 {
        script.add(Chombo(dealer));
    }
    for _ in 0..2 {
        script.add(Riichi(dealer));
        script.draw(&[0, 1, 2, 3]);
    }
    script.add(Riichi(dealer));
    script.add(Riichi(dealer));
    script.draw(&[0, 1, 2, 3]);
    no_stick(script, dealer);
    script.win(dealer, |hand, scored| hand.how == RON && (18_000..=24_000).contains(&scored.changes[dealer as usize]));
}

/// Riichi, then a win without a riichi field that Score refuses so; then a draw.
fn silent(script: &mut Script, refusal: u8) {
    let seat = script.able_first(&[])[0];
    let hand = script.find(seat, |hand, scored| scored.refusal == refusal && hand.riichi == 0);
    script.add(Riichi(seat));
    script.add(Win(pack(&hand)));
    script.draw(&[script.position.dealer, seat]);
}

/// A win refused with 2 to 7, nobody declared.
fn refused(script: &mut Script, number: u8) {
    let record = refused_record(script, number);
    script.add(Win(record));
}

/// A record that Score refuses with 2 to 7; refusal 1 cannot come up in a log (01, Log).
pub fn refused_record(script: &mut Script, number: u8) -> Vec<u8> {
    loop {
        let fault = script.rng.below(FAULTS);
        let record = match number {
            2..=5 => fault::record(&mut script.rng, fault),
            6 if fault % 2 == 0 => pack(&drawn(&mut script.rng)),
            6 => pack(&near(&mut script.rng)),
            _ => pack(&script.find(fault as u8 % 4, |_, scored| scored.refusal == 7)),
        };
        if crate::score(&record, script.position.dealer, script.position.wind).refusal == number {
            return record;
        }
    }
}

/// A draw with so many ready, the dealer among them, some of them declared.
fn draw(script: &mut Script, count: usize) {
    let seats = script.able_first(&[script.position.dealer]);
    for &seat in &seats[..count] {
        if script.rng.percent(50) {
            script.add(Riichi(seat));
        }
    }
    script.draw(&seats[..count]);
}

/// A draw in which so many declared seats, those with the most points, are not ready; of the others each has declared, is ready, or
/// both (02, S-7).
fn unready(script: &mut Script, count: usize) {
    let seats = script.by_score();
    let (unready, rest) = seats.split_at(count);
    let declared: Vec<u8> = rest.iter().copied().filter(|_| script.rng.percent(50)).collect();
    for &seat in unready.iter().chain(&declared) {
        script.add(Riichi(seat));
    }
    let ready: Vec<u8> = rest.iter().copied().filter(|seat| declared.contains(seat) || script.rng.percent(50)).collect();
    script.draw(&ready);
}

/// A chombo with so many declared, by one of them or by another seat, that with the most points.
fn chombo(script: &mut Script, count: usize, own: bool) {
    let seats = script.able_first(&[]);
    let (declared, rest) = seats.split_at(count);
    for &seat in declared {
        script.add(Riichi(seat));
    }
    let by = if (own || rest.is_empty()) && count > 0 { declared } else { rest };
    let most = script.by_score().into_iter().find(|seat| by.contains(seat));
    script.add(Chombo(most.expect("a seat")));
}

/// Names a feeder of a holder's yaku; gives it.
pub fn named(script: &mut Script, holder: u8, yaku: u8) -> u8 {
    let feeder = script.seats(&[holder])[1];
    script.add(Pao { holder, feeder, yaku });
    feeder
}

/// A win of a seat reported with one of the two yaku that a feeder answers for, which passes a test (02, S-8).
fn with_pao_yaku(script: &mut Script, winner: u8, yaku: u8, test: impl Fn(&Hand) -> bool) {
    let (dealer, wind) = (script.position.dealer, script.position.wind);
    script.win(winner, |hand, scored| scored.yaku >> yaku & 1 == 1 && pao::yaku(hand, dealer, wind) == Some(yaku) && test(hand));
}

/// A win paid by pao: by tsumo after a riichi and with another holder named too, from the feeder with a riichi since and the
/// holder's other yaku named too, or from another (02, S-8).
fn pao(script: &mut Script, holder: u8, yaku: u8, from: From) {
    let others: Vec<u8> = script.able_first(&[holder])[1..].to_vec();
    if from == From::Wall {
        script.add(Riichi(others[0]));
        named(script, others[1], yaku);
    }
    let feeder = named(script, holder, yaku);
    if from == From::Feeder {
        script.add(Riichi(others[0]));
        named(script, holder, DRAGONS + WINDS - yaku);
    }
    with_pao_yaku(script, holder, yaku, |hand| match from {
        From::Wall => hand.how == TSUMO,
        From::Feeder => hand.how == RON && hand.discarder == feeder,
        From::Another => hand.how == RON && hand.discarder != feeder,
    });
}

/// A holder and yaku named with the same feeder again and with another, and a holder named as the feeder (refusal 18); then a draw.
fn pao_twice(script: &mut Script) {
    let (seats, yaku) = (script.seats(&[]), script.rng.pick(&[DRAGONS, WINDS]));
    for feeder in [seats[1], seats[1], seats[2], seats[0]] {
        script.add(Pao { holder: seats[0], feeder, yaku });
    }
    script.add(Pao { holder: seats[3], feeder: seats[3], yaku });
    script.draw(&[script.position.dealer]);
}

/// A feeder of the dealer, the hand's end, and a win of the dealer with that yaku, which is paid plainly (02, S-8).
fn lapsed(script: &mut Script, by: char) {
    let dealer = script.position.dealer;
    let child = script.able_first(&[dealer])[1];
    let yaku = script.rng.pick(&[DRAGONS, WINDS]);
    named(script, dealer, yaku);
    match by {
        'W' => script.win(dealer, |_, scored| scored.yaku >> yaku & 1 == 0),
        'D' => drop(script.draw(&[dealer])),
        'U' => {
            script.add(Riichi(child));
            script.draw(&[dealer]);
        }
        _ => drop(script.add(Chombo(child))),
    }
    with_pao_yaku(script, dealer, yaku, |_| true);
}

/// A multiple ron of so many, the dealer's among them: two with records of two lengths and a stick of the seat that pays, or three with
/// a declared winner and the first winner last (02, S-6).
fn multi_ron(script: &mut Script, number: usize) {
    let seats = script.able_first(&[script.position.dealer]);
    let from = seats[1];
    let mut winners = [&seats[..1], &seats[2..]].concat()[..number].to_vec();
    winners.sort_by_key(|seat| (from + 4 - seat) % 4);
    let declares = number == 3 && script.position.affords_riichi(winners[0]);
    let hands = loop {
        let hands = script.hands(&winners, from, |hand| !declares || hand.riichi > 0);
        if number != 2 || length(hands[0].m) != length(hands[1].m) {
            break hands;
        }
    };
    if number == 2 {
        script.add(Riichi(from));
    }
    script.multi_ron(&hands, true);
}

/// A multiple ron with the dealer's win paid by pao (02, S-6 and S-8).
fn multi_ron_pao(script: &mut Script, way: u8) {
    let (dealer, wind, yaku) = (script.position.dealer, script.position.wind, script.rng.pick(&[DRAGONS, WINDS]));
    let seats = script.seats(&[dealer]);
    let feeder = [seats[2], seats[3], seats[1]][way as usize];
    let hands = script.hands(&seats[..2], seats[2], |hand| pao::yaku(hand, dealer, wind) == Some(yaku));
    script.add(Pao { holder: dealer, feeder, yaku });
    script.multi_ron(&hands, true);
}

/// Two hands on one tile, the dealer's first, neither with riichi.
fn two(script: &mut Script) -> [Hand; 2] {
    let seats = script.seats(&[script.position.dealer]);
    loop {
        let hands = script.hands(&seats[..2], seats[2], |hand| hand.riichi == 0);
        if hands[1].riichi == 0 {
            return [hands[0], hands[1]];
        }
    }
}

/// Two sound hands that make no multiple ron in this way (refusal 17).
fn multi_ron_unfit(script: &mut Script, fault: usize) {
    let hands = unfit(script, fault);
    script.multi_ron(&hands, false);
}

/// Two sound hands without riichi that make no multiple ron in this way.
pub fn unfit(script: &mut Script, fault: usize) -> [Hand; 2] {
    loop {
        let [one, mut two] = two(script);
        let (at, kind) = (script.rng.below(13 - 3 * two.m as usize), script.rng.within(0, 33));
        match fault {
            0 => (two.how, two.discarder) = (TSUMO, 0),
            1 => two.winner = one.winner,
            2 => two.discarder = 6 - one.winner - two.winner - one.discarder,
            3 => std::mem::swap(&mut two.winning, &mut two.concealed[at]),
            4 => two.indicator = kind,
            _ => two.situation = if one.situation == ORDINARY { LAST_TILE } else { ORDINARY },
        }
        two.concealed[..13 - 3 * two.m as usize].sort();
        if refusal(&two) == 0 && multi_ron::faults(&[one, two])[fault] {
            return [one, two];
        }
    }
}

/// Two rons of which one, the first or the second, is refused with 2 to 7 or 11.
fn multi_ron_refused(script: &mut Script, number: u8) {
    let second = script.rng.percent(50);
    loop {
        let [one, two] = two(script);
        let at = script.rng.below(13 - 3 * two.m as usize);
        let mut spoiled = two;
        match number {
            6 => {
                spoiled.concealed[at] = script.rng.within(0, 33);
                spoiled.concealed[..13 - 3 * two.m as usize].sort();
            }
            7 => match on_tile_of(&mut script.rng, &one, two.winner, 0) {
                Some(hand) => spoiled = hand,
                None => continue,
            },
            _ => spoiled.riichi = 1,
        }
        let fault = script.rng.below(FAULTS);
        let record = if number < 6 { fault::record(&mut script.rng, fault) } else { pack(&spoiled) };
        let fits = match number {
            2..=5 => read(&record) == Err(number),
            6..=7 => refusal(&spoiled) == 0 && script.score(&spoiled).refusal == number,
            _ => refusal(&spoiled) == 0,
        };
        if fits {
            let list = if second { [pack(&one), record] } else { [record, pack(&one)] };
            script.add(MultiRon { number: 2, records: list.concat() });
            return;
        }
    }
}

/// Sticks carried over two draws, a draw with a declared seat that is not ready and a chombo, to a win of the dealer.
fn carried(script: &mut Script) {
    let seats = script.able_first(&[script.position.dealer]);
    for ready in [2, 3] {
        script.add(Riichi(seats[1]));
        script.draw(&seats[..ready]);
    }
    script.add(Riichi(seats[1]));
    script.add(Riichi(seats[2]));
    script.draw(&seats[..2]);
    script.add(Riichi(seats[0]));
    script.add(Riichi(seats[2]));
    script.add(Chombo(seats[3]));
    script.add(Riichi(seats[3]));
    script.win(seats[0], |_, scored| (1..=3).contains(&scored.h));
}

/// The scene that passes the deal for the time after this many (01, The game); the first and the third go on with wins of a deal
/// with no counter, by ron and by tsumo, and a draw with no stick, so that each log has them; the fourth is a win paid by pao, the
/// sixth a multiple ron.
pub fn pass(script: &mut Script, deal: usize) {
    let dealer = script.position.dealer;
    let child = script.child();
    let others: Vec<u8> = script.seats(&[dealer])[1..].to_vec();
    match deal {
        0 => {
            script.add(Riichi(dealer));
            script.win(child, |hand, _| hand.how == RON);
            script.win(script.position.dealer, |hand, _| hand.how == RON);
        }
        1 => {
            script.draw(&[]);
        }
        2 => {
            script.win(child, |hand, _| hand.how == TSUMO);
            let dealer = script.position.dealer;
            script.win(dealer, |hand, _| hand.how == TSUMO);
            script.draw(&[dealer]);
        }
        3 => {
            let (yaku, from) = (script.rng.pick(&[DRAGONS, WINDS]), script.rng.pick(&[From::Wall, From::Feeder, From::Another]));
            pao(script, child, yaku, from);
        }
        4 => script.win(child, |_, scored| scored.yaku >> 27 & 1 == 1),
        5 => {
            let hands = script.hands(&others[..2], dealer, |_| true);
            script.multi_ron(&hands, true);
        }
        6 => {
            let child = script.able_first(&[dealer])[1];
            let able = script.position.affords_riichi(child);
            script.win(child, |hand, _| hand.riichi == able as u8);
        }
        _ => {
            let child = script.able_first(&[dealer])[1];
            if !script.position.affords_riichi(child) {
                script.add(Riichi(dealer));
                script.draw(&[dealer]);
            }
            script.add(Riichi(child));
            script.draw(&[child]);
        }
    }
}

/// Entries that a game that is over refuses with 9, or 8 if that is first, and a correction refused with 2; then a cut one (14).
pub fn after_the_end(script: &mut Script) {
    let seat = script.rng.within(0, 3);
    let sound = pack(&script.find(seat, |hand, scored| hand.riichi == 0 && scored.refusal == 0));
    script.add(Riichi(seat));
    script.add(Riichi(7));
    script.add(Win(sound));
    refused(script, 2);
    refused(script, 6);
    script.add(Draw(0));
    script.add(Draw(15));
    script.add(Chombo(seat));
    script.add(Chombo(4));
    named(script, seat, DRAGONS);
    script.add(Pao { holder: seat, feeder: seat, yaku: WINDS });
    let hands = two(script);
    script.multi_ron(&hands, false);
    multi_ron_unfit(script, 1);
    let record = refused_record(script, 2);
    script.add(Win(record).as_correction());
    let whole = Win(pack(&script.find(seat, any))).as_correction().bytes();
    let cut = 5 + script.rng.below(whole.len() - 5);
    script.log.extend(&whole[..cut]);
}
