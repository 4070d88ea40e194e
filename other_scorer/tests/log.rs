//! Walking a log and the lines of program tally (01, Log; 02, S-6, S-8, S-10 and S-11).

use other_scorer::codec::pack;
use other_scorer::deal::themed;
use other_scorer::entry::Entry;
use other_scorer::example::{example, survey::survey, End};
use other_scorer::log::{entries, next, tally_lines, Next, CORRECTION, LONGEST, MULTI_RON, PAO, WIN};
use other_scorer::rng::Rng;
use other_scorer::{Hand, Ledger};

#[test]
fn the_papers_example() {
    let lines = "1 R 0 30000 29000 30000 30000 1\n2 D 0 29000 32000 29000 29000 1\n";
    assert_eq!(tally_lines(&[0x01, 0x24]), lines);
    assert_eq!(tally_lines(&[]), "");
}

#[test]
fn entries_are_parts_of_the_log() {
    let log = [0x03, 0x2F, 0x3E];
    for (at, kind, argument) in [(0, 0, 3), (1, 2, 15), (2, 3, 14)] {
        let Next::Entry { kind: k, argument: a, part } = next(&log, at) else { panic!("an entry") };
        assert_eq!((k, a), (kind, argument));
        assert!(std::ptr::eq(part, &log[at..at + 1]));
    }
    for offset in [3, 4, usize::MAX] {
        assert_eq!(next(&log, offset), Next::End);
    }
    assert_eq!(next(&[], 0), Next::End);
}

#[test]
fn wins_of_every_length_and_every_cut() {
    let mut rng = Rng::new(41);
    let mut seen = [false; 5];
    while seen.contains(&false) {
        let hand = themed(&mut rng);
        seen[hand.m as usize] = true;
        let part = Entry::Win(pack(&hand)).bytes();
        let log = [&[0x00], part.as_slice(), &[0x30]].concat();
        let whole = Next::Entry { kind: WIN, argument: 0, part: &part };
        assert_eq!(next(&log, 1), whole);
        assert_eq!(entries(&log).0[1], Entry::Win(pack(&hand)));
        for end in 2..part.len() + 1 {
            assert_eq!(next(&log[..end], 1), Next::Bad(14));
            assert_eq!(tally_lines(&log[..end]).lines().count(), 1);
        }
        assert_eq!(next(&log[..part.len() + 1], 1), whole);
    }
}

#[test]
fn bad_headers_and_melds() {
    for header in 0..=255u8 {
        let mut log = [0; 40];
        log[0] = header;
        let wrong_number = header >> 4 == 4 && ![1, 2, 3].contains(&(header & 15));
        let bad = header >> 4 > 5 || wrong_number || [1, 5].contains(&(header >> 4)) && header & 15 != 0; // a correction of a riichi is bad
        assert_eq!(next(&log, 0) == Next::Bad(14), bad, "{header:02x}");
    }
    for m in 0..8u8 {
        let mut log = [0xFF; 20];
        log[0] = 0x10;
        log[3] = 0xFC | m >> 1;
        log[4] = 0x7F | m << 7;
        let size = [14, 13, 12, 11, 9].get(m as usize);
        match (next(&log, 0), size) {
            (Next::Entry { part, .. }, Some(&size)) => assert_eq!(part.len(), size),
            (other, _) => assert_eq!((other, m > 4), (Next::Bad(14), true)),
        }
    }
}

#[test]
fn multiple_rons_of_every_length_and_every_cut() {
    let mut rng = Rng::new(42);
    for number in 1..=3u8 {
        for _ in 0..60 {
            let hands: Vec<Hand> = (0..number).map(|_| themed(&mut rng)).collect();
            let records: Vec<u8> = hands.iter().flat_map(pack).collect();
            let entry = Entry::MultiRon { number, records };
            let part = entry.bytes();
            assert_eq!(part.len(), 1 + hands.iter().map(|hand| [13, 12, 11, 10, 8][hand.m as usize]).sum::<usize>());
            let log = [&[0x00], part.as_slice(), &[0x30]].concat();
            assert_eq!(next(&log, 1), Next::Entry { kind: MULTI_RON, argument: number, part: &part });
            assert_eq!(entries(&log).0[1], entry);
            for end in 2..part.len() + 1 {
                assert_eq!(next(&log[..end], 1), Next::Bad(14));
            }
            // The m of each record over 4.
            let mut at = 1;
            for hand in &hands {
                for m in 5..8u8 {
                    let mut bad = part.clone();
                    bad[at + 2] = bad[at + 2] & !3 | m >> 1;
                    bad[at + 3] = bad[at + 3] & 0x7F | m << 7;
                    assert_eq!(next(&bad, 0), Next::Bad(14), "m {m} at {at}");
                }
                at += pack(hand).len();
            }
        }
    }
}

#[test]
fn the_byte_of_a_pao() {
    for byte in 0..=255u8 {
        let log = [0x50, byte, 0x50];
        let (holder, feeder, yaku) = (byte >> 6, byte >> 4 & 3, 28 + (byte >> 3 & 1));
        if byte & 7 != 0 {
            assert_eq!(next(&log, 0), Next::Bad(14), "{byte:02x}");
            continue;
        }
        assert_eq!(next(&log, 0), Next::Entry { kind: PAO, argument: 0, part: &log[..2] });
        let entry = Entry::Pao { holder, feeder, yaku };
        assert_eq!(entry.bytes(), log[..2]);
        assert_eq!(entries(&log), (vec![entry], 14));
        let refusal = if holder == feeder { 18 } else { 0 };
        assert_eq!(tally_lines(&log), format!("1 P {refusal} 30000 30000 30000 30000 0\n"));
        assert_eq!(next(&log[..1], 0), Next::Bad(14));
        for argument in 1..16 {
            assert_eq!(next(&[0x50 | argument, byte], 0), Next::Bad(14));
        }
    }
}

/// Line 1 of document 01's table.
const LINE_1: [u8; 13] = [0xB8, 0x1E, 0x64, 0x02, 0x10, 0x62, 0x0A, 0x31, 0x66, 0x1A, 0x9A, 0x6B, 0xB0];

#[test]
fn corrections_of_every_entry_and_every_cut() {
    let mut rng = Rng::new(43);
    let record = |rng: &mut Rng| pack(&themed(rng));
    for round in 0..200u8 {
        let number = 1 + round % 3;
        let records = (0..number).flat_map(|_| record(&mut rng)).collect();
        let inside =
            [Entry::Win(record(&mut rng)), Entry::Draw(round % 16), Entry::Chombo(round % 16), Entry::MultiRon { number, records }];
        for new in inside {
            let entry = new.clone().as_correction();
            let part = entry.bytes();
            assert_eq!(part, [&[0x60], new.bytes().as_slice()].concat());
            let log = [&[0x00], part.as_slice(), &[0x30]].concat();
            assert_eq!(next(&log, 1), Next::Entry { kind: CORRECTION, argument: 0, part: &part });
            assert_eq!(entries(&log).0[1], entry);
            for end in 2..part.len() + 1 {
                assert_eq!(next(&log[..end], 1), Next::Bad(14));
            }
            for argument in 1..16 {
                assert_eq!(next(&[&[0x60 | argument], &part[1..]].concat(), 0), Next::Bad(14));
            }
        }
    }
}

#[test]
fn another_kind_of_entry_in_a_correction_is_bad() {
    for header in 0..=255u8 {
        let mut log = [0; 50];
        (log[0], log[1]) = (0x60, header);
        let bad = ![1, 2, 3, 4].contains(&(header >> 4)) || next(&log[1..], 0) == Next::Bad(14);
        assert_eq!(next(&log, 0) == Next::Bad(14), bad, "{header:02x}");
    }
    // A riichi, a pao and a correction are whole entries.
    for inside in [&[0x01][..], &[0x50, 0x70], &[0x60, 0x20], &[0x60, 0x60, 0x20]] {
        assert_eq!(entries(&[&[0x20, 0x60], inside].concat()).1, 14);
        assert_eq!(tally_lines(&[&[0x20, 0x60], inside].concat()).lines().count(), 1);
    }
    // m over 4 in a win's record.
    let mut log = [&[0x60, 0x10], &LINE_1[..]].concat();
    assert!(matches!(next(&log, 0), Next::Entry { part, .. } if part.len() == 15));
    (log[4], log[5]) = (log[4] | 2, log[5] | 128);
    assert_eq!(next(&log, 0), Next::Bad(14));
}

#[test]
fn lines_of_corrections() {
    // Nothing to put right; a win, put right by a draw that ends nothing, by a chombo; one refused; riichi; one too late.
    let log = [&[0x60, 0x20, 0x10], &LINE_1[..], &[0x60, 0x28, 0x60, 0x31, 0x60, 0x3F, 0x04, 0x60, 0x10], &LINE_1[..], &[0x02, 0x60, 0x2F]]
        .concat();
    let lines = "1 X 20 30000 30000 30000 30000 0\n2 W 0 30000 32000 30000 28000 0\n3 X 0 33000 29000 29000 29000 0\n\
        4 X 0 33000 21000 33000 33000 0\n5 X 8 33000 21000 33000 33000 0\n6 R 8 33000 21000 33000 33000 0\n\
        7 X 0 30000 32000 30000 28000 0\n8 R 0 30000 32000 29000 28000 1\n9 X 20 30000 32000 29000 28000 1\n";
    assert_eq!(tally_lines(&log), lines);
}

#[test]
fn a_stored_log_with_riichi_on_credit_goes_on() {
    let marked = [&[0xBA], &LINE_1[1..]].concat();
    let log = [&[0x31, 0x31, 0x31, 0x31, 0x01, 0x10], marked.as_slice(), &[0x10], &LINE_1].concat();
    let last = "4 C 0 42000 -6000 42000 42000 0\n5 R 21 42000 -6000 42000 42000 0\n6 W 11 42000 -6000 42000 42000 0\n7 W 0 42000 -4000 42000 40000 0\n";
    assert!(tally_lines(&log).ends_with(last));
}

#[test]
fn tally_stops_at_14_without_a_line() {
    let lines = tally_lines(&[0x00, 0x70, 0x00]);
    assert_eq!(lines, "1 R 0 29000 30000 30000 30000 1\n");
}

#[test]
fn tally_reads_65_536_bytes() {
    let log = vec![0x04; LONGEST + 10];
    let lines = tally_lines(&log);
    assert_eq!(lines.lines().count(), LONGEST);
    assert!(lines.ends_with("65536 R 8 30000 30000 30000 30000 0\n"));
    let mut cut = vec![0x04; LONGEST - 1];
    cut.extend(Entry::Win(pack(&themed(&mut Rng::new(1)))).bytes());
    assert_eq!(tally_lines(&cut).lines().count(), LONGEST - 1);
}

#[test]
fn minus_before_negatives() {
    let lines = tally_lines(&[0x30; 4]);
    assert!(lines.ends_with("4 C 0 -6000 42000 42000 42000 0\n"));
}

#[test]
fn examples_cover_everything_and_agree_with_the_ledger() {
    for (seed, end) in (0..10).flat_map(|seed| [(seed, End::Deal), (seed, End::Hands)]) {
        let log = example(seed, end);
        assert_eq!(log, example(seed, end));
        let (count, hands, cover) = survey(&log);
        assert_eq!(cover.short(1), vec![""; 0], "seed {seed}");
        assert!((200..600).contains(&count));
        assert_eq!(hands == 200, end == End::Hands);
        assert_eq!(cover.lines().contains(&"play goes on after the end: yes=2".to_string()), end == End::Deal);
        let (list, bad) = entries(&log);
        assert_eq!(bad, 14);
        let mut ledger = Ledger::fresh();
        let mut lines = String::new();
        for (at, entry) in list.iter().enumerate() {
            let (next, number) = ledger.after(entry);
            let ([a, b, c, d], sticks) = (next.scores, next.sticks);
            let letter = ['R', 'W', 'D', 'C', 'M', 'P', 'X'][(entry.bytes()[0] >> 4) as usize];
            lines += &format!("{} {letter} {number} {a} {b} {c} {d} {sticks}\n", at + 1);
            ledger = next;
        }
        assert_eq!(tally_lines(&log), lines);
    }
}
