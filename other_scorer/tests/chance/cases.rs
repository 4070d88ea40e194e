//! What of pao, multiple rons, corrections and sticks an entry meets, for counting: a run that leaves one out has not tested it (02, S-6,
//! S-8, S-10 and S-11).

use other_scorer::codec::read;
use other_scorer::pao::{self, DRAGONS, WINDS};
use other_scorer::position::{book, pao_feeder};
use other_scorer::record::{Hand, RON};
use other_scorer::score::score;
use other_scorer::{multi_ron, Entry, Game, Position};

/// All cases.
pub const CASES: [&str; 117] = [
    "pao of 28: tsumo",
    "pao of 28: ron from the feeder",
    "pao of 28: ron from another",
    "pao of 29: tsumo",
    "pao of 29: ron from the feeder",
    "pao of 29: ron from another",
    "pao: the dealer wins",
    "pao: a child wins",
    "pao: counters",
    "pao: no counters",
    "pao: sticks",
    "no pao: three wind triplets and a pair",
    "no pao: the yaku of another holder",
    "pao named: a second holder of the yaku",
    "pao refused: the holder is the feeder",
    "pao refused: another yaku",
    "pao refused: named already, the same feeder",
    "pao refused: named already, another feeder",
    "feeders out of form alone",
    "lapse by a win paid by pao",
    "lapse by another win",
    "lapse by a draw",
    "lapse by a draw that is a chombo",
    "lapse by a chombo",
    "lapse by a multiple ron",
    "multiple ron of 1",
    "multiple ron of 2",
    "multiple ron of 3",
    "multiple ron: the dealer wins",
    "multiple ron: the dealer pays",
    "multiple ron: the dealer does neither",
    "multiple ron: counters",
    "multiple ron: sticks",
    "multiple ron: the first winner in a later record",
    "multiple ron: a declared winner",
    "multiple ron: records of two lengths",
    "multiple ron: pao, from the feeder",
    "multiple ron: pao, from another",
    "multiple ron: pao, the feeder wins too",
    "multiple ron: pao, two winners",
    "multiple ron refused: none or over three",
    "multiple ron refused: a record isn't ron",
    "multiple ron refused: two have one winner",
    "multiple ron refused: they differ in discarder",
    "multiple ron refused: they differ in winning tile",
    "multiple ron refused: they differ in indicator",
    "multiple ron refused: they differ in situation",
    "multiple ron refused: first record 1",
    "multiple ron refused: first record 2",
    "multiple ron refused: first record 3",
    "multiple ron refused: first record 4",
    "multiple ron refused: first record 5",
    "multiple ron refused: first record 6",
    "multiple ron refused: first record 7",
    "multiple ron refused: first record 11",
    "multiple ron refused: later record 1",
    "multiple ron refused: later record 2",
    "multiple ron refused: later record 3",
    "multiple ron refused: later record 4",
    "multiple ron refused: later record 5",
    "multiple ron refused: later record 6",
    "multiple ron refused: later record 7",
    "multiple ron refused: later record 11",
    "riichi: with 1,000",
    "riichi: with 1,001 to 1,999",
    "riichi refused: not open, with under 1,000",
    "riichi refused: declared, with under 1,000",
    "riichi refused: with 999",
    "riichi refused: with 0 to 998",
    "riichi refused: with under 0",
    "no stick: its win with riichi marked is refused",
    "no stick: a multiple ron with its riichi marked is refused",
    "no stick: its win without riichi is paid",
    "correction: a win",
    "correction: a draw",
    "correction: a draw that is a chombo",
    "correction: a chombo",
    "correction: a multiple ron",
    "correction: a win paid by pao",
    "correction of a win",
    "correction of a draw",
    "correction of a draw that is a chombo",
    "correction of a chombo",
    "correction of a multiple ron",
    "correction of a correction",
    "correction at once",
    "correction after a refused booking",
    "correction after a refused correction",
    "correction: declared seats come back",
    "correction: feeders come back",
    "correction: counters come back",
    "correction: sticks come back",
    "correction: the deal comes back",
    "correction of the end: play goes on",
    "correction of the end: the deal ends it again",
    "correction of the end: the 200th hand",
    "correction: it ends the game",
    "correction refused: nothing is booked yet",
    "correction refused: since a riichi",
    "correction refused: since a pao",
    "correction refused: 20 before the result's own",
    "correction refused: 1",
    "correction refused: 2",
    "correction refused: 3",
    "correction refused: 4",
    "correction refused: 5",
    "correction refused: 6",
    "correction refused: 7",
    "correction refused: 8",
    "correction refused: 11",
    "correction refused: 17",
    LENT[0],
    LENT[1],
    LENT[2],
    LENT[3],
    LENT[4],
    LENT[5],
];

/// The cases of a correction that only games lent in any state meet (02, S-10).
pub const LENT: [&str; 6] = [
    "correction of a result before the list",
    "correction refused: none to supersede, the game over",
    "correction refused: the position out of form",
    "correction refused: the earlier position out of form",
    "correction refused: the earlier position over",
    "another booking refused: the earlier position out of form",
];

/// What of the entries before an entry counts: the seats without a stick in this hand, whether the last accepted one was a correction,
/// and whether one has been refused since, a correction (true) or a booking.
#[derive(Default)]
pub struct Track {
    away: Away,
    corrected: bool,
    refused: Option<bool>,
}

impl Track {
    /// The cases that an entry in a game meets, with its refusal, which is then noted.
    pub fn met(&mut self, before: &Game, entry: &Entry, refusal: u8) -> Vec<&'static str> {
        let is_correction = matches!(entry, Entry::Correction(_));
        let mut met = met(before, entry, refusal);
        met.extend(self.away.met(entry, refusal));
        if is_correction && refusal == 0 {
            met.extend(self.corrected.then_some("correction of a correction"));
            met.push(match self.refused {
                None => "correction at once",
                Some(false) => "correction after a refused booking",
                Some(true) => "correction after a refused correction",
            });
        }
        (self.corrected, self.refused) = match refusal {
            0 => (is_correction, None),
            _ => (self.corrected, Some(is_correction)),
        };
        met
    }
}

/// The seats whose riichi was refused with 21 in this hand (02, S-11).
#[derive(Default)]
struct Away([bool; 4]);

impl Away {
    /// The cases of such seats that an entry meets, with its refusal; then its own riichi, or the hand's end, is noted.
    fn met(&mut self, entry: &Entry, refusal: u8) -> Option<&'static str> {
        let hands = match entry {
            Entry::Win(record) => read(record).map_or(vec![], |hand| vec![hand]),
            Entry::MultiRon { number, records } => multi_ron::hands(*number, records).unwrap_or_default(),
            _ => vec![],
        };
        let away = |riichi: bool| hands.iter().any(|hand| self.0[hand.winner as usize] && (hand.riichi > 0) == riichi);
        let met = match (entry, refusal) {
            (Entry::Win(_), 11) if away(true) => Some("no stick: its win with riichi marked is refused"),
            (Entry::MultiRon { .. }, 11) if away(true) => Some("no stick: a multiple ron with its riichi marked is refused"),
            (Entry::Win(_), 0) if away(false) => Some("no stick: its win without riichi is paid"),
            _ => None,
        };
        match (entry, refusal) {
            (Entry::Riichi(seat), 21) => self.0[*seat as usize] = true,
            (_, 0) if entry.finishes() => self.0 = [false; 4],
            _ => {}
        }
        met
    }
}

/// The case of a riichi with about 1,000 points or fewer (02, S-11).
fn of_riichi(before: &Position, seat: u8, refusal: u8) -> Option<&'static str> {
    match (refusal, before.scores[seat as usize]) {
        (0, 1000) => Some("riichi: with 1,000"),
        (0, 1001..=1999) => Some("riichi: with 1,001 to 1,999"),
        (9, ..=999) => Some("riichi refused: not open, with under 1,000"),
        (10, ..=999) => Some("riichi refused: declared, with under 1,000"),
        (21, 999) => Some("riichi refused: with 999"),
        (21, 0..=998) => Some("riichi refused: with 0 to 998"),
        (21, ..=-1) => Some("riichi refused: with under 0"),
        _ => None,
    }
}

/// The case of this name.
fn case(name: String) -> &'static str {
    CASES.into_iter().find(|case| *case == name).unwrap_or_else(|| panic!("{name}"))
}

/// Whether a seat is named as the holder of a yaku.
fn named(position: &Position, holder: u8, yaku: u8) -> bool {
    position.feeder(holder, yaku).is_some()
}

/// The cases of an accepted win.
fn of_win(before: &Position, record: &[u8]) -> Vec<&'static str> {
    let hand = read(record).expect("an accepted win");
    let (yaku, feeder) = (pao::yaku(&hand, before.dealer, before.wind), pao_feeder(before, &hand));
    let Some(feeder) = feeder else {
        let little = yaku.is_none() && score(record, before.dealer, before.wind).yaku >> WINDS & 1 == 1;
        let other = yaku.is_some_and(|yaku| (0..4).any(|seat| named(before, seat, yaku)));
        let list = [
            (little && named(before, hand.winner, WINDS), "no pao: three wind triplets and a pair"),
            (other, "no pao: the yaku of another holder"),
        ];
        return list.into_iter().filter(|(holds, _)| *holds).map(|(_, case)| case).collect();
    };
    let how = match hand.how {
        RON if hand.discarder == feeder => 1,
        RON => 2,
        _ => 0, // the order of the first six cases
    };
    let first = if yaku == Some(DRAGONS) { 0 } else { 3 };
    let mut met = vec![CASES[first + how]];
    met.push(if hand.winner == before.dealer { "pao: the dealer wins" } else { "pao: a child wins" });
    met.push(if before.counter > 0 { "pao: counters" } else { "pao: no counters" });
    met.extend((before.sticks > 0).then_some("pao: sticks"));
    met
}

/// The cases of a pao.
fn of_pao(before: &Position, (holder, feeder, yaku): (u8, u8, u8), refusal: u8) -> Vec<&'static str> {
    match refusal {
        0 if (0..4).any(|seat| named(before, seat, yaku)) => vec!["pao named: a second holder of the yaku"],
        18 if holder == feeder => vec!["pao refused: the holder is the feeder"],
        18 if yaku != DRAGONS && yaku != WINDS => vec!["pao refused: another yaku"],
        18 if before.feeder(holder, yaku) == Some(feeder) => vec!["pao refused: named already, the same feeder"],
        18 => vec!["pao refused: named already, another feeder"],
        _ => vec![],
    }
}

/// The cases of an accepted multiple ron.
fn of_multi_ron(before: &Position, hands: &[Hand]) -> Vec<&'static str> {
    let (from, wins) = (hands[0].discarder, |seat: u8| hands.iter().any(|hand| hand.winner == seat));
    let feeders: Vec<u8> = hands.iter().filter_map(|hand| pao_feeder(before, hand)).collect();
    let first = multi_ron::first_winner(hands);
    let tests = [
        (wins(before.dealer), "multiple ron: the dealer wins"),
        (before.dealer == from, "multiple ron: the dealer pays"),
        (!wins(before.dealer) && before.dealer != from, "multiple ron: the dealer does neither"),
        (before.counter > 0, "multiple ron: counters"),
        (before.sticks > 0, "multiple ron: sticks"),
        (hands[0].winner != first, "multiple ron: the first winner in a later record"),
        (hands.iter().any(|hand| hand.riichi > 0), "multiple ron: a declared winner"),
        (hands.iter().any(|hand| hand.m != hands[0].m), "multiple ron: records of two lengths"),
        (feeders.contains(&from), "multiple ron: pao, from the feeder"),
        (feeders.iter().any(|&seat| seat != from), "multiple ron: pao, from another"),
        (feeders.iter().any(|&seat| wins(seat)), "multiple ron: pao, the feeder wins too"),
        (feeders.len() > 1, "multiple ron: pao, two winners"),
    ];
    let met = tests.into_iter().filter(|(holds, _)| *holds).map(|(_, case)| case);
    met.chain([case(format!("multiple ron of {}", hands.len()))]).collect()
}

/// The cases of a refused multiple ron.
fn of_refused_multi_ron(before: &Position, number: u8, records: &[u8], refusal: u8) -> Vec<&'static str> {
    if number == 0 || number > 3 {
        return vec!["multiple ron refused: none or over three"];
    }
    if refusal == 17 {
        let hands = multi_ron::hands(number, records).expect("a multiple ron that reads");
        let faults = multi_ron::FAULTS.into_iter().zip(multi_ron::faults(&hands)).filter(|(_, holds)| *holds);
        return faults.map(|(fault, _)| case(format!("multiple ron refused: {fault}"))).collect();
    }
    let own = |record: &[u8]| book(&mut { *before }, &Entry::Win(record.to_vec()));
    let meets = |record: &[u8]| if refusal <= 5 { read(record).is_err() } else { own(record) != 0 };
    let at = multi_ron::split(number, records).into_iter().position(meets).expect("a refused record");
    vec![case(format!("multiple ron refused: {} record {refusal}", if at == 0 { "first" } else { "later" }))]
}

/// A result in a position in words.
fn in_words(before: &Position, result: &Entry) -> &'static str {
    match result {
        Entry::Win(_) => "a win",
        Entry::Draw(bits) if before.unready(*bits).is_empty() => "a draw",
        Entry::Draw(_) => "a draw that is a chombo",
        Entry::Chombo(_) => "a chombo",
        _ => "a multiple ron",
    }
}

/// The cases of a correction that has a position to be booked in, with the refusal that it meets there, 0 if accepted (02, S-10).
fn of_correction(before: &Game, earlier: &Position, new: &Entry, refusal: u8) -> Vec<&'static str> {
    let now = before.now();
    let mut met = of_booking(earlier, new, refusal);
    if refusal != 0 {
        met.push(if refusal == 9 { LENT[4] } else { case(format!("correction refused: {refusal}")) });
        return met;
    }
    let mut after = *earlier;
    assert_eq!(book(&mut after, new), 0);
    let pao = met.contains(&"pao: the dealer wins") || met.contains(&"pao: a child wins");
    let tests = [
        (pao, "correction: a win paid by pao"),
        (earlier.declared.contains(&true), "correction: declared seats come back"),
        (earlier.feeders != [0; 8], "correction: feeders come back"),
        (earlier.counter > now.counter, "correction: counters come back"),
        (earlier.sticks > now.sticks, "correction: sticks come back"),
        ((earlier.dealer, earlier.wind) != (now.dealer, now.wind), "correction: the deal comes back"),
        (now.over && !after.over, "correction of the end: play goes on"),
        (now.over && after.over && after.hands < 200, "correction of the end: the deal ends it again"),
        (now.over && now.hands == 200, "correction of the end: the 200th hand"),
        (!now.over && after.over, "correction: it ends the game"),
    ];
    met.extend(tests.into_iter().filter(|(holds, _)| *holds).map(|(_, case)| case));
    met.push(case(format!("correction: {}", in_words(earlier, new))));
    met.push(before.last().map_or(LENT[0], |old| case(format!("correction of {}", in_words(earlier, old)))));
    met
}

/// The cases that an entry in a game meets, with its refusal.
fn met(before: &Game, entry: &Entry, refusal: u8) -> Vec<&'static str> {
    let (now, earlier) = (before.now(), before.earlier());
    let is_lost = now.is_open() && earlier.is_some_and(|earlier| !earlier.is_in_form());
    let met = match (entry, earlier, before.last()) {
        (Entry::Correction(_), ..) if !now.is_in_form() => vec![LENT[2]],
        (Entry::Correction(_), ..) if !before.is_in_form() => vec![LENT[3]],
        (Entry::Correction(new), Some(earlier), _) => of_correction(before, &earlier, new, refusal),
        (Entry::Correction(new), None, last) => {
            let since = match last {
                None if now.over || now.hands == 200 => LENT[1],
                None => "correction refused: nothing is booked yet",
                Some(Entry::Riichi(_)) => "correction refused: since a riichi",
                Some(_) => "correction refused: since a pao",
            };
            let own = book(&mut { *now }, new) != 0;
            [since].into_iter().chain(own.then_some("correction refused: 20 before the result's own")).collect()
        }
        _ if is_lost && refusal == 9 => vec![LENT[5]],
        _ => of_booking(now, entry, refusal),
    };
    assert!(met.iter().all(|case| CASES.contains(case)), "{met:?}");
    met
}

/// The cases that a booking meets in a position, with its refusal.
fn of_booking(before: &Position, booking: &Entry, refusal: u8) -> Vec<&'static str> {
    let mut met = match (booking, refusal) {
        (Entry::Win(record), 0) => of_win(before, record),
        (Entry::MultiRon { number, records }, 0) => {
            of_multi_ron(before, &multi_ron::hands(*number, records).expect("an accepted multiple ron"))
        }
        (Entry::MultiRon { number, records }, 1..=7 | 11 | 17) => of_refused_multi_ron(before, *number, records, refusal),
        (Entry::Pao { holder, feeder, yaku }, _) => of_pao(before, (*holder, *feeder, *yaku), refusal),
        (Entry::Riichi(seat @ 0..=3), _) => of_riichi(before, *seat, refusal).into_iter().collect(),
        _ => vec![],
    };
    let without = Position { feeders: [0; 8], ..*before };
    met.extend((refusal == 9 && without.is_open()).then_some("feeders out of form alone"));
    let pao = met.contains(&"pao: the dealer wins") || met.contains(&"pao: a child wins");
    if refusal == 0 && before.feeders != [0; 8] {
        met.extend(match booking {
            Entry::Win(_) if pao => Some("lapse by a win paid by pao"),
            Entry::Win(_) => Some("lapse by another win"),
            Entry::Draw(bits) if before.unready(*bits).is_empty() => Some("lapse by a draw"),
            Entry::Draw(_) => Some("lapse by a draw that is a chombo"),
            Entry::Chombo(_) => Some("lapse by a chombo"),
            Entry::MultiRon { .. } => Some("lapse by a multiple ron"),
            Entry::Riichi(_) | Entry::Pao { .. } | Entry::Correction(_) => None,
        });
    }
    met
}
