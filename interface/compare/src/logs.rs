//! Random logs through Next entry, the bookings, the corrections and the lines of tally.

use archive::{same, Games, Walk};
use other_scorer::damage::noise;
use other_scorer::example::{example, End};
use other_scorer::log::{entry, next, size, tally_lines, Next, CORRECTION, LONGEST, MULTI_RON, PAO};
use other_scorer::notation::hex::to_hex as hex;
use other_scorer::rng::Rng;
use other_scorer::{Entry, Game};

use crate::cases::Track;
use crate::report::Report;
use crate::{buffers, cases, chance, lines, positions};

/// Entries made past the end of a game, and tried in all.
const PAST: usize = 12;
const TRIED: usize = 2000;

/// The entries of a chain in a game of any state, and the chains for each log.
const CHAIN: usize = 10;
const CHAINS: usize = 25;

/// So many logs meet every case.
const ENOUGH: usize = 64;

/// The section that an entry's refusals are counted in.
fn section(entry: &Entry) -> &'static str {
    match entry {
        Entry::Riichi(_) => "Riichi by refusal",
        Entry::Win(_) => "Win by refusal",
        Entry::Draw(_) => "Draw by refusal",
        Entry::Chombo(_) => "Chombo by refusal",
        Entry::MultiRon { .. } => "Multiple ron by refusal",
        Entry::Pao { .. } => "Pao by refusal",
        Entry::Correction(_) => "Correction by refusal",
    }
}

/// What lent games have to meet: bytes of an earlier position that do not matter, and marks that are neither 0 nor 1 (02, S-10).
const LENT: [&str; 5] = [
    "lent game: correctable 0, the earlier position out of form, a booking accepted",
    "lent game: correctable 0, the earlier position out of form, a correction refused with 20",
    "lent game: correctable over 1, a correction accepted",
    "lent game: correctable over 1, another result accepted",
    "lent game: correctable 256 or more with a low byte of 0, a correction accepted",
];

/// The cases of a lent game, from its bytes, that an entry meets with its refusal.
fn of_lent(before: &archive::Game, entry: &Entry, refusal: u8) -> Vec<&'static str> {
    let lost = before.correctable == 0 && !same::to_other_position(&before.earlier).is_in_form();
    let correction = matches!(entry, Entry::Correction(_));
    let cases = [
        lost && refusal == 0,
        lost && refusal == 20,
        before.correctable > 1 && correction && refusal == 0,
        before.correctable > 1 && !correction && entry.finishes() && refusal == 0,
        before.correctable > 1 && before.correctable % 256 == 0 && correction && refusal == 0,
    ];
    LENT.into_iter().zip(cases).filter(|(_, holds)| *holds).map(|(case, _)| case).collect()
}

/// Counts an entry by its refusal and the cases it meets, a win that was paid by whether there were counters, and an accepted draw
/// by the declared seats that are not ready.
fn note(report: &mut Report, before: &Games, entry: &Entry, refusal: u8, track: &mut Track) {
    report.count(section(entry), refusal);
    let met = track.met(&before.other, entry, refusal).into_iter().chain(of_lent(&before.archive, entry, refusal));
    met.for_each(|case| report.meet(case));
    let position = before.other.now();
    match (entry, refusal) {
        (Entry::Win(_), 0) => report.count("wins paid (1 with counters)", position.counter > 0),
        (Entry::Draw(bits), 0) => report.count("draws by seats declared, not ready", position.unready(*bits).len() as u8),
        _ => {}
    }
}

/// Books the entry that bytes begin with in the games kept three ways, counts it, unless they differ, and gives the refusal.
fn book_entry(report: &mut Report, games: &mut Games, track: &mut Track, bytes: &[u8], input: &dyn Fn() -> String) -> u8 {
    let (before, differences) = (games.clone(), report.differences.count);
    let (refusal, entry) = games.book_entry(&mut report.differences, bytes, input);
    match entry {
        Some(entry) if report.differences.count == differences => note(report, &before, &entry, refusal, track),
        Some(_) => {}
        None => report.count("no entry to book", refusal),
    }
    refusal
}

/// Books by the entry's call in the games kept three ways, and counts it, unless they differ.
fn book_call(report: &mut Report, games: &mut Games, track: &mut Track, entry: &Entry) {
    let (before, differences) = (games.clone(), report.differences.count);
    let refusal = games.book(&mut report.differences, entry, &String::new);
    if report.differences.count == differences {
        note(report, &before, entry, refusal, track);
    }
}

/// The log of a played game, its refused entries too, and some past its end; `keep`: mostly to 200 hands.
fn played(rng: &mut Rng, keep: bool) -> Vec<u8> {
    let (mut log, mut game, mut past) = (Vec::new(), Game::fresh(), 0);
    for _ in 0..TRIED {
        if past == PAST {
            break;
        }
        let bytes = chance::entry(rng, &game, keep).bytes();
        let Next::Entry { kind, argument, part } = next(&bytes, 0) else { continue };
        if part.len() < bytes.len() {
            continue;
        }
        game.book(&entry(kind, argument, part));
        log.extend(bytes);
        past += game.now().over as usize;
    }
    log
}

/// Entries of one byte with any argument, paos, mostly in form, and wins and multiple rons of any bytes; the header of a correction
/// before some; at times a pao's or a correction's first byte last.
fn sown(rng: &mut Rng) -> Vec<u8> {
    let mut log = Vec::new();
    for _ in 0..rng.below(80) {
        if rng.percent(15) {
            log.push(0x60 | rng.pick(&[0, 0, 0, 0, 0, 0, 0, 1, 8]));
        }
        match rng.below(8) {
            0 => log.extend(Entry::Win(noise(rng)).bytes()),
            1 => log.push(rng.next() as u8),
            3 => log.extend(Entry::MultiRon { number: rng.within(0, 4), records: [noise(rng), noise(rng)].concat() }.bytes()),
            2 => log.extend([0x50 | rng.pick(&[0, 0, 0, 1, 8]), rng.next() as u8 & rng.pick(&[0xf8, 0xf8, 0xf8, 0xff])]),
            _ => log.push(rng.pick(&[0x00, 0x20, 0x30]) | rng.within(0, 15)),
        }
    }
    log.extend(rng.pick(&[&[][..], &[0x50], &[0x50], &[0x60], &[0x60]]));
    log
}

/// Changes, takes away or adds a few bytes, until none is left.
fn damage(rng: &mut Rng, log: &mut Vec<u8>) {
    for _ in 0..1 + rng.below(3) {
        if log.is_empty() {
            return;
        }
        let at = rng.below(log.len());
        match rng.below(3) {
            0 => log[at] ^= 1 << rng.below(8),
            1 => log.insert(at, rng.next() as u8),
            _ => drop(log.remove(at)),
        }
    }
}

/// The log of this index.
fn make(rng: &mut Rng, index: usize) -> Vec<u8> {
    let mut log = match index % 8 {
        0 | 1 => played(rng, false),
        2 => played(rng, true),
        3 => {
            let mut log = played(rng, false);
            log.truncate(rng.below(log.len()));
            log
        }
        4 => {
            let mut log = played(rng, false);
            damage(rng, &mut log);
            log
        }
        5 => (0..rng.below(300)).map(|_| rng.next() as u8).collect(),
        6 => sown(rng),
        _ => match index % 64 {
            7 => example(rng.next(), End::Deal),
            39 => example(rng.next(), End::Hands),
            _ => sown(rng),
        },
    };
    while index % 64 == 8 && log.len() <= LONGEST {
        log.extend_from_within(..);
    }
    log
}

/// The ways in which a multiple ron, a pao or a correction in a log is bad.
const DAMAGED: [&str; 11] = [
    "multiple ron in a log: no records or over three",
    "multiple ron in a log: m over 4",
    "multiple ron in a log: bytes missing",
    "pao in a log: bytes missing",
    "pao in a log: argument not 0",
    "pao in a log: a zero bit set",
    "correction in a log: argument not 0",
    "correction in a log: another kind inside",
    "correction in a log: nothing inside",
    "correction in a log: a win inside that is bad",
    "correction in a log: a multiple ron inside that is bad",
];

/// How the multiple ron, pao or correction that a stretch begins with is bad (02, S-6, S-8 and S-10).
fn damaged_entry(rest: &[u8]) -> Option<&'static str> {
    let fault = if rest.is_empty() { return None } else { size(rest).err()? };
    match (rest[0] >> 4, fault) {
        (MULTI_RON, 6) => Some(DAMAGED[0]),
        (MULTI_RON, 2) => Some(DAMAGED[1]),
        (MULTI_RON, _) => Some(DAMAGED[2]),
        (PAO, _) => Some(DAMAGED[fault]), // 3 to 5
        (CORRECTION, 7) => Some(DAMAGED[6]),
        (CORRECTION, 8) => Some(DAMAGED[7]),
        (CORRECTION, _) => Some(rest.get(1).map_or(DAMAGED[8], |inside| DAMAGED[if inside >> 4 == MULTI_RON { 10 } else { 9 }])),
        _ => None,
    }
}

/// Compares the entry at every offset of a log and at some past its end.
fn compare_entries(report: &mut Report, log: &[u8]) {
    let last = log.len() + 2;
    for at in (0..=last).chain([usize::MAX - 16, usize::MAX - 1, usize::MAX]) {
        let wanted = same::next_entry(log, at);
        log.get(at..).and_then(damaged_entry).into_iter().for_each(|case| report.meet(case));
        match (wanted.refusal, wanted.end) {
            (0, 0) => report.count("entries by kind", wanted.kind),
            (0, _) => report.count("no entry (0 end, 14 refused)", 0u8),
            (refusal, _) => report.count("no entry (0 end, 14 refused)", refusal),
        }
        report.same("Next entry", archive::log_next(log, at), wanted, || format!("{} at {at}", hex(log)));
    }
}

/// Walks a log by the archive's entries and books them; compares every answer, game and line.
fn compare_walk(report: &mut Report, rng: &mut Rng, log: &[u8]) {
    let log = &log[..log.len().min(LONGEST)];
    let text = tally_lines(log);
    let mut lines_left = text.split_inclusive('\n');
    let mut games = Games::fresh(&mut report.differences);
    let (mut at, mut number, mut track) = (0, 0, Track::default());
    let input = || format!("log {}", hex(log));
    loop {
        let entry = archive::log_next(log, at);
        if entry.refusal != 0 || entry.end != 0 {
            report.same("the lines after the walk", None, lines_left.next(), input);
            games.replay(&mut report.differences, &input);
            let position = games.other.now();
            report.count("games walked (1 over, 0 not)", position.over);
            report.count("games walked (200 hands, 0 fewer)", if position.hands == 200 { 200u16 } else { 0 });
            return;
        }
        // A length that is not the entry's is a difference of `compare_entries`.
        let Some(part) = log.get(at..at.saturating_add(entry.length)).filter(|part| !part.is_empty()) else {
            report.same("the part of an entry", Some(at), None, input);
            return;
        };
        let refusal = book_entry(report, &mut games, &mut track, part, &input);
        report.same("refusal 1 in a log", refusal == 1, false, input);
        number += 1;
        match lines_left.next() {
            Some(line) => {
                let numbers = (number, entry.letter, refusal);
                lines::compare(report, rng, line.as_bytes(), numbers, &games.archive.now);
            }
            None => {
                report.same("an entry without a line", Some(at), None, input);
                return;
            }
        }
        at += part.len();
    }
}

/// Compares the lines of a log from its start, and from anywhere in a game of any state.
fn compare_lines(report: &mut Report, rng: &mut Rng, log: &[u8]) {
    let log = &log[..log.len().min(LONGEST)];
    let start = Walk { game: same::fresh_game(), entry: 1, at: 0 };
    report.same("the start of a walk", archive::log_start(), start, String::new);
    let text = buffers::compare(report, rng, start, log);
    report.same("the lines of a log", &text, &tally_lines(log), || hex(log));

    let (game, any) = (any_game(rng), rng.next() as u32);
    let at = if rng.percent(10) { usize::MAX } else { rng.below(log.len() + 3) };
    let entry = rng.pick(&[any, any % 100, u32::MAX - any % 4]);
    buffers::compare(report, rng, Walk { game, entry, at }, log);
}

/// A position of any state, in form or not, its set marks any byte but 0.
pub fn any_position(rng: &mut Rng) -> archive::Position {
    let mut position = same::position(&positions::any(rng));
    if rng.percent(50) {
        let marks = position.declared.iter_mut().chain([&mut position.over]);
        marks.filter(|mark| **mark != 0).for_each(|mark| *mark = rng.within(1, 255));
    }
    position
}

/// A position of any bytes.
pub fn any_bytes(rng: &mut Rng) -> archive::Position {
    let scores = [(); 4].map(|_| rng.next() as i32);
    let [dealer, wind, hands, over] = [(); 4].map(|_| rng.next() as u8);
    let (declared, feeders) = ([(); 4].map(|_| rng.next() as u8), [(); 8].map(|_| rng.next() as u8));
    archive::Position { scores, sticks: rng.next() as u32, declared, dealer, wind, hands, over, counter: rng.next() as u32, feeders }
}

/// A game of any state: its position and its earlier one each in form or not, the earlier at times of any bytes; correctable any number,
/// often 0.
fn any_game(rng: &mut Rng) -> archive::Game {
    let earlier = if rng.percent(10) { any_bytes(rng) } else { any_position(rng) };
    let any = rng.next() as u32;
    let correctable = rng.pick(&[0, 0, 0, 1, 1, 2, 255, 256, 1 << 16, 1 << 31, any]);
    archive::Game { now: any_position(rng), earlier, correctable }
}

/// Books a chain in a game of any state, with arguments up to 255 and any record: by the entry's call or by its bytes.
fn compare_chain(report: &mut Report, rng: &mut Rng) {
    let (mut games, mut track) = (Games::of(any_game(rng)), Track::default());
    for _ in 0..CHAIN {
        let keep = rng.percent(50);
        let entry = chance::entry(rng, &games.other, keep);
        if rng.percent(50) {
            book_call(report, &mut games, &mut track, &entry);
        } else {
            let mut bytes = entry.bytes();
            if rng.percent(20) {
                damage(rng, &mut bytes);
            }
            book_entry(report, &mut games, &mut track, &bytes, &String::new);
        }
    }
    games.replay(&mut report.differences, &String::new);
}

/// Compares so many random logs, and some chains of entries for each.
pub fn run(report: &mut Report, rng: &mut Rng, count: usize) {
    if count >= ENOUGH {
        cases::CASES.iter().chain(&DAMAGED).chain(&LENT).for_each(|case| report.need(case));
    }
    for index in 0..count {
        let log = make(rng, index);
        report.count("logs (1 over 65,536 bytes)", log.len() > LONGEST);
        compare_entries(report, &log);
        compare_walk(report, rng, &log);
        compare_lines(report, rng, &log);
        (0..CHAINS).for_each(|_| compare_chain(report, rng));
    }
}
