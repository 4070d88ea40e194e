//! Each refusal in words, and which of its conditions was met, worked out by the other scorer.

use other_scorer::codec::{length, length_fault, meld_count, read, unpack, LENGTH_FAULTS};
use other_scorer::log::{size, ENTRY_FAULTS};
use other_scorer::notation::text;
use other_scorer::pao;
use other_scorer::position::{book, pao_feeder};
use other_scorer::record::RON;
use other_scorer::sound::{field_faults, situation_faults, FIELD_FAULTS, SITUATION_FAULTS};
use other_scorer::{multi_ron, unfinished, Entry, Game, Hand, Position};

use crate::names::{count, points};

/// The highest refusal of a record or a log.
pub const LAST: u8 = 21;

/// A refusal in words (01, each at its place); docs/REFUSALS.md has the same.
pub fn refusal(number: u8) -> &'static str {
    match number {
        0 => "accepted",
        1 => "the length is wrong or m is over 4",
        2 => "a field is out of range",
        3 => "the concealed tiles descend somewhere",
        4 => "over four of a kind",
        5 => "riichi or situation does not fit the hand",
        6 => "no reading",
        7 => "readings but none with a yaku",
        8 => "an argument is out of range",
        9 => "the game is not open",
        10 => "declared already this hand",
        11 => "the riichi field and the declaration differ",
        12 => "never given: a declared seat is not ready",
        13 => "the buffer is shorter than the record, the unfinished hand, the claim or the message",
        14 => "the log's entry is bad or cut",
        15 => "a discard is no kind",
        16 => "the page is shorter than a slip",
        17 => "the hands are no rons on one tile, or none or over three",
        18 => "the pao does not fit, or is named already",
        19 => "no such suit or size, or the buffer is shorter than the list",
        20 => "there is no result to supersede",
        21 => "the seat has no 1,000 points for the stick",
        22 => "the claim is faulty",
        _ => "no refusal of documents 01 and 02",
    }
}

/// The refusal with its number, its words and the conditions met.
pub fn sentence(number: u8, met: &[String]) -> String {
    match (number, met) {
        (0, _) => refusal(0).into(),
        (_, []) => format!("refusal {number}, {}", refusal(number)),
        _ => format!("refusal {number}, {}: {}", refusal(number), met.join("; ")),
    }
}

/// The words of the conditions that hold.
fn holding(words: &[&str], holds: &[bool]) -> Vec<String> {
    words.iter().zip(holds).filter(|(_, holds)| **holds).map(|(word, _)| word.to_string()).collect()
}

/// Where concealed tiles descend.
fn descents(concealed: &[u8]) -> Vec<String> {
    let two = concealed.windows(2).filter(|two| two[0] > two[1]);
    two.map(|two| format!("{} after {}", text(&two[1..]), text(&two[..1]))).collect()
}

/// The kinds seen over four times.
fn over_four(seen: &[u8]) -> Vec<String> {
    let times = |kind: u8| seen.iter().filter(|&&tile| tile == kind).count();
    (0..34).filter(|&kind| times(kind) > 4).map(|kind| format!("{} of {}", times(kind), text(&[kind]))).collect()
}

/// The conditions met by a record's refusal 1 to 8, for this dealer and wind (01, Read; Score).
pub fn of_record(refusal: u8, record: &[u8], dealer: u8, wind: u8) -> Vec<String> {
    if refusal == 8 {
        let words = [format!("dealer {dealer} over 3"), format!("wind {wind} over 1")];
        return holding(&words.each_ref().map(String::as_str), &[dealer > 3, wind > 1]);
    }
    let Ok((hand, padding)) = unpack(record) else {
        return match length_fault(record) {
            Some(2) => {
                let m = meld_count(record);
                let melds = count(m as usize, "meld");
                vec![format!("{}: {} bytes, with {melds} {} are needed", LENGTH_FAULTS[2], record.len(), length(m))]
            }
            fault => fault.map(|fault| LENGTH_FAULTS[fault].to_string()).into_iter().collect(),
        };
    };
    match refusal {
        2 => holding(&FIELD_FAULTS, &[&field_faults(&hand)[..], &[padding]].concat()),
        3 => descents(hand.concealed()),
        4 => over_four(&hand.seen()),
        5 => holding(&SITUATION_FAULTS, &situation_faults(&hand)),
        6 => vec!["neither a pair and groups, nor seven pairs, nor thirteen orphans".into()],
        7 => vec![count(archive::reading_count(record, dealer, wind).count as usize, "reading")],
        _ => Vec::new(),
    }
}

/// The conditions met by the refusal of an unfinished hand with discards (02, S-1).
pub fn of_unfinished(refusal: u8, bytes: &[u8], discards: &[u8]) -> Vec<String> {
    let Ok((hand, padding)) = unfinished::unpack(bytes) else {
        return match unfinished::length_fault(bytes) {
            Some(2) => {
                let m = bytes[0] >> 5;
                let (melds, needed) = (count(m as usize, "meld"), unfinished::length(m));
                vec![format!("{}: {} bytes, with {melds} {needed} are needed", unfinished::LENGTH_FAULTS[2], bytes.len())]
            }
            fault => fault.map(|fault| unfinished::LENGTH_FAULTS[fault].to_string()).into_iter().collect(),
        };
    };
    match refusal {
        2 => holding(&unfinished::FIELD_FAULTS, &[&unfinished::field_faults(&hand)[..], &[padding]].concat()),
        3 => descents(hand.concealed()),
        4 => over_four(&hand.held()),
        15 => discards.iter().filter(|&&kind| kind > 33).map(|kind| format!("{kind} over 33")).collect(),
        _ => Vec::new(),
    }
}

/// The conditions met by the refusal of a multiple ron: how its hands do not belong together, or those of the first record that meets
/// the refusal, with its number from 1 (02, S-6).
fn of_multi_ron(refusal: u8, list: &[&[u8]], position: &Position) -> Vec<String> {
    if refusal == 17 {
        let hands: Vec<Hand> = list.iter().filter_map(|record| read(record).ok()).collect();
        return holding(&multi_ron::FAULTS, &multi_ron::faults(&hands));
    }
    let refused = |record: &&[u8]| match read(record) {
        Err(_) => refusal <= 5,
        Ok(_) => refusal > 5 && book(&mut { *position }, &Entry::Win(record.to_vec())) != 0,
    };
    let at = list.iter().position(refused);
    let own = at.map_or(Vec::new(), |at| in_position(refusal, &Entry::Win(list[at].to_vec()), position));
    own.iter().map(|why| format!("record {}: {why}", at.unwrap_or(0) + 1)).collect()
}

/// The conditions met by the refusal of an entry in a game; a correction's result is refused in the earlier position (02, S-10).
pub fn of_entry(refusal: u8, entry: &Entry, game: &Game) -> Vec<String> {
    match (entry, game.earlier()) {
        (Entry::Correction(new), Some(earlier)) => in_position(refusal, new, &earlier),
        (Entry::Correction(_), None) => vec![match game.last() {
            None => "nothing is booked yet".into(),
            Some(Entry::Riichi(_)) => "a riichi has been accepted since".into(),
            Some(_) => "a pao has been accepted since".into(),
        }],
        _ => in_position(refusal, entry, game.now()),
    }
}

/// The conditions met by the refusal of a booking in a position (01, The game; 02, S-6, S-8 and S-11).
fn in_position(refusal: u8, booking: &Entry, position: &Position) -> Vec<String> {
    match (refusal, booking) {
        (9, _) if position.hands == 200 => vec!["200 hands are finished".into()],
        (9, _) => vec!["it is over".into()],
        (8, Entry::Riichi(seat) | Entry::Chombo(seat)) => vec![format!("seat {seat} over 3")],
        (10, Entry::Riichi(seat)) => vec![format!("seat {seat}")],
        (21, Entry::Riichi(seat)) => vec![format!("seat {seat} has {}", points(position.scores[*seat as usize].into()))],
        (11, Entry::Win(record)) => unpack(record).map_or(Vec::new(), |(hand, _)| match hand.riichi {
            0 => vec![format!("seat {} has declared, the record has no riichi", hand.winner)],
            _ => vec![format!("the record has riichi, seat {} has not declared", hand.winner)],
        }),
        (18, Entry::Pao { holder, feeder, .. }) if holder == feeder => vec![format!("seat {holder} is holder and feeder")],
        (18, Entry::Pao { holder, yaku, .. }) => {
            let feeder = position.feeder(*holder, *yaku).map(|seat| format!("seat {seat} is named for yaku {yaku} of seat {holder}"));
            feeder.into_iter().collect()
        }
        (_, Entry::MultiRon { number, records }) => of_multi_ron(refusal, &multi_ron::split(*number, records), position),
        (_, Entry::Win(record)) => of_record(refusal, record, position.dealer, position.wind),
        _ => Vec::new(),
    }
}

/// What an accepted draw was where a declared seat was not ready: a chombo of these seats (02, S-7).
pub fn of_draw(booking: &Entry, position: &Position) -> Option<String> {
    let Entry::Draw(bits) = booking else { return None };
    let seats: Vec<String> = position.unready(*bits).iter().map(|seat| format!("seat {seat}")).collect();
    (!seats.is_empty()).then(|| format!("a chombo, declared and not ready: {}", seats.join("; ")))
}

/// Who pays an accepted win by pao, article 67, and who takes sticks and counters of a multiple ron (02, S-6 and S-8).
pub fn of_wins(booking: &Entry, position: &Position) -> Option<String> {
    let hands = match booking {
        Entry::Win(record) => read(record).map(|hand| vec![hand]),
        Entry::MultiRon { number, records } => multi_ron::hands(*number, records),
        _ => return None,
    };
    let hands = hands.ok()?;
    let first = (hands.len() > 1).then(|| format!("sticks and counters are seat {}'s", multi_ron::first_winner(&hands)));
    let counters = if hands.len() > 1 { ["", ""] } else { [" and the counters", ", with the counters"] };
    let said: Vec<String> = first.into_iter().chain(hands.iter().filter_map(|hand| of_pao(hand, position, counters))).collect();
    (!said.is_empty()).then(|| said.join("; "))
}

/// Who pays a win by pao, article 67, with words on the counters by ron and by tsumo (02, S-8).
fn of_pao(hand: &Hand, position: &Position, counters: [&str; 2]) -> Option<String> {
    let (feeder, yaku) = (pao_feeder(position, hand)?, pao::yaku(hand, position.dealer, position.wind)?);
    let pays = match hand.how {
        RON if hand.discarder == feeder => "pays all, as the discarder too".to_string(),
        RON => format!("pays half, seat {} the other half{}", hand.discarder, counters[0]),
        _ => format!("pays the whole{}", counters[1]),
    };
    Some(format!("pao: seat {feeder}, the feeder of seat {}'s yaku {yaku}, {pays}", hand.winner))
}

/// The condition met by refusal 14 at the start of a stretch of a log (01, Next entry).
pub fn of_part(rest: &[u8]) -> Vec<String> {
    size(rest).err().map(|fault| ENTRY_FAULTS[fault].to_string()).into_iter().collect()
}
