//! The six bookings: refusals in their order, points, deal, wind and mark (01, The game), the counter (02, S-5), multiple rons
//! (02, S-6), seats that are not ready (02, S-7), pao (02, S-8) and the points of a stick (02, S-11); and corrections (02, S-10).

use other_scorer::codec::pack;
use other_scorer::notation::parse;
use other_scorer::position::{book, chombo, draw, multi_ron, pao, riichi, win, FLOOR};
use other_scorer::{Entry, Game, Position};

/// A record from notation.
fn record(words: &[&str]) -> Vec<u8> {
    pack(&parse(words).expect("notation"))
}

/// The first hand of document 01's table, won by a seat from another, with more words.
fn pinfu(seat: u8, from: u8, more: &[&str]) -> Vec<u8> {
    let (seat, ron) = (format!("seat={seat}"), format!("ron={from}"));
    record(&[&["234567m345p67s22s+8s", &seat[..], &ron[..]], more].concat())
}

/// Records that Score refuses with 1 to 7, in this order.
fn refused() -> Vec<Vec<u8>> {
    let sound = pinfu(1, 3, &[]);
    let mut field = sound.clone();
    field[0] |= 0b110;
    let mut descends = sound.clone();
    descends[3] |= 0b0011_0000;
    vec![
        sound[..12].to_vec(),
        field,
        descends,
        record(&["2222345m345p67s2m+8s", "seat=1", "ron=3"]),
        pinfu(1, 3, &["rinshan"]),
        record(&["1111m44m77m22p55p8p+8p", "seat=1", "ron=3"]),
        record(&["456p78s234s99p+9s", "chi=123m", "seat=1", "ron=3"]),
    ]
}

/// Books on a copy, and checks that a refused entry changes nothing.
fn number(position: &Position, entry: Entry) -> u8 {
    let mut after = *position;
    let number = book(&mut after, &entry);
    assert_eq!(number != 0, after == *position);
    number
}

/// Each way for a position not to be open (01, The game, refusal 9).
fn not_open() -> Vec<Position> {
    let fresh = Position::fresh();
    vec![
        Position { over: true, ..fresh },
        Position { hands: 200, ..fresh },
        Position { dealer: 4, ..fresh },
        Position { dealer: 255, ..fresh },
        Position { wind: 2, ..fresh },
        Position { hands: 201, ..fresh },
        Position { hands: 255, ..fresh },
        Position { declared: [true, false, false, false], ..fresh },
        Position { declared: [true; 4], sticks: 3, scores: [27_000, 30_000, 30_000, 30_000], ..fresh },
        Position { scores: [FLOOR - 1, 28_630_001, 30_000, 0], ..fresh },
        Position { counter: 1, ..fresh },
        Position { counter: 200, hands: 199, ..fresh },
        Position { counter: u32::MAX, hands: 199, ..fresh },
        Position { feeders: [0, 0, 5, 0, 0, 0, 0, 0], ..fresh },
        Position { feeders: [0, 0, 0, 0, 0, 0, 0, 255], ..fresh },
        Position { feeders: [1, 0, 0, 0, 0, 0, 0, 0], ..fresh },
        Position { feeders: [2, 3, 4, 1, 2, 3, 3, 1], ..fresh },
        Position { scores: [30_000, 30_000, 30_000, 30_001], ..fresh },
        Position { scores: [29_000, 30_000, 30_000, 30_000], ..fresh },
        Position { sticks: 1, ..fresh },
        Position { scores: [i32::MAX; 4], sticks: u32::MAX, declared: [true; 4], ..fresh },
        Position { scores: [i32::MIN; 4], sticks: u32::MAX, hands: 255, ..fresh },
    ]
}

#[test]
fn fresh_is_open_and_the_floor_itself_is_in_form() {
    let fresh = Position::fresh();
    assert!(fresh.is_open());
    assert!(Position { scores: [FLOOR, 28_630_000, 30_000, 0], ..fresh }.is_open());
    assert!(Position { counter: 199, hands: 199, ..fresh }.is_open());
    assert!(Position { hands: 199, dealer: 3, wind: 1, ..fresh }.is_open());
    let most = Position { scores: [FLOOR; 4], sticks: 114_280, declared: [true; 4], ..fresh };
    assert!(most.is_open());
    assert!(not_open().iter().all(|position| !position.is_open()));
}

#[test]
fn refusals_1_to_7_are_met_one_by_one() {
    let numbers: Vec<u8> = refused().into_iter().map(|record| number(&Position::fresh(), Entry::Win(record))).collect();
    assert_eq!(numbers, vec![1, 2, 3, 4, 5, 6, 7]);
}

#[test]
fn riichi_refuses_8_9_10() {
    for position in not_open() {
        assert_eq!(number(&position, Entry::Riichi(4)), 8);
        assert_eq!(number(&position, Entry::Riichi(255)), 8);
        assert_eq!(number(&position, Entry::Riichi(0)), 9);
    }
    let declared = Position { over: true, ..after(&[Entry::Riichi(2)]) };
    assert_eq!(number(&declared, Entry::Riichi(2)), 9);
    let open = Position { over: false, ..declared };
    assert_eq!(number(&open, Entry::Riichi(2)), 10);
    assert_eq!(number(&open, Entry::Riichi(4)), 8);
    assert_eq!(number(&open, Entry::Riichi(3)), 0);
}

/// A fresh position but that seat 1 has so many points and seat 2 the rest.
fn with_points(points: i32) -> Position {
    Position { scores: [30_000, points, 60_000 - points, 30_000], ..Position::fresh() }
}

#[test]
fn riichi_refuses_under_1_000_with_21_after_10() {
    for points in [FLOOR, -28_000_000, -1000, -1, 0, 100, 900, 998, 999] {
        assert_eq!(number(&with_points(points), Entry::Riichi(1)), 21, "{points}");
        // Another seat's points do not matter, nor those under 1,000 where 8, 9 or 10 is met.
        assert_eq!(number(&with_points(points), Entry::Riichi(2)), 0);
        assert_eq!(number(&with_points(points), Entry::Riichi(4)), 8);
        assert_eq!(number(&Position { over: true, ..with_points(points) }, Entry::Riichi(1)), 9);
        let declared = Position {
            declared: [false, true, false, false],
            sticks: 1,
            scores: [29_000, points, 60_000 - points, 30_000],
            ..Position::fresh()
        };
        assert_eq!(number(&declared, Entry::Riichi(1)), 10);
    }
    for points in [1000, 1001, 1100, 1999, 2000, 30_000] {
        let mut position = with_points(points);
        assert_eq!(riichi(&mut position, 1), 0, "{points}");
        assert_eq!((position.scores[1], position.sticks, position.declared), (points - 1000, 1, [false, true, false, false]));
        assert_eq!(number(&position, Entry::Riichi(1)), 10);
    }
}

#[test]
fn after_a_riichi_with_21_a_win_with_riichi_marked_meets_11() {
    let start = with_points(999);
    let marked =
        [Entry::Win(pinfu(1, 3, &["riichi"])), Entry::Win(pinfu(1, 3, &["double"])), rons(&[pinfu(1, 3, &["riichi"]), pinfu(2, 3, &[])])];
    for entry in marked {
        let mut position = start;
        assert_eq!((riichi(&mut position, 1), book(&mut position, &entry)), (21, 11));
        assert_eq!(position, start);
        // The hand goes on: without riichi the win is paid, or the seat declares once it has the points.
        assert_eq!(number(&position, Entry::Win(pinfu(1, 3, &[]))), 0);
        assert_eq!((chombo(&mut position, 0), riichi(&mut position, 1), book(&mut position, &entry)), (0, 0, 0));
    }
}

#[test]
fn win_refuses_9_then_1_to_7_then_11() {
    for position in not_open() {
        for record in refused() {
            assert_eq!(number(&position, Entry::Win(record)), 9);
        }
        assert_eq!(number(&position, Entry::Win(vec![])), 9);
        assert_eq!(number(&position, Entry::Win(pinfu(1, 3, &["riichi"]))), 9);
    }
    // The refused records carry no riichi field, so with seat 1 declared each meets 11 too.
    let declared = after(&[Entry::Riichi(1)]);
    for (at, record) in refused().into_iter().enumerate() {
        assert_eq!(number(&declared, Entry::Win(record)), at as u8 + 1);
    }
    assert_eq!(number(&declared, Entry::Win(pinfu(1, 3, &[]))), 11);
    assert_eq!(number(&declared, Entry::Win(pinfu(1, 3, &["riichi"]))), 0);
    assert_eq!(number(&declared, Entry::Win(pinfu(1, 3, &["double"]))), 0);
    assert_eq!(number(&declared, Entry::Win(pinfu(2, 3, &[]))), 0);
    assert_eq!(number(&declared, Entry::Win(pinfu(2, 1, &["riichi"]))), 11);
    assert_eq!(number(&Position::fresh(), Entry::Win(pinfu(1, 3, &["double"]))), 11);
}

#[test]
fn draw_refuses_8_9_and_never_12() {
    let declared = after(&[Entry::Riichi(1)]);
    for position in not_open().into_iter().chain([Position { over: true, ..declared }]) {
        assert_eq!(number(&position, Entry::Draw(16)), 8);
        assert_eq!(number(&position, Entry::Draw(255)), 8);
        assert_eq!(number(&position, Entry::Draw(0)), 9);
    }
    for bits in 0..16 {
        assert_eq!(number(&declared, Entry::Draw(bits)), 0);
    }
    assert_eq!(number(&declared, Entry::Draw(16)), 8);
}

#[test]
fn chombo_refuses_8_9() {
    for position in not_open() {
        assert_eq!(number(&position, Entry::Chombo(4)), 8);
        assert_eq!(number(&position, Entry::Chombo(3)), 9);
    }
    assert_eq!(number(&Position::fresh(), Entry::Chombo(3)), 0);
}

/// The position of a fresh game after bookings that are all accepted.
fn after(list: &[Entry]) -> Position {
    let mut position = Position::fresh();
    for entry in list {
        assert_eq!(book(&mut position, entry), 0, "{entry:?}");
    }
    position
}

#[test]
fn a_win_takes_all_sticks() {
    let start = [Entry::Riichi(0), Entry::Draw(8), Entry::Riichi(1), Entry::Riichi(2)];
    let mut position = after(&start);
    assert_eq!((position.scores, position.sticks), ([32_000, 28_000, 28_000, 29_000], 3));
    assert_eq!(position.declared, [false, true, true, false]);
    assert_eq!(win(&mut position, &pinfu(1, 3, &["riichi"])), 0);
    assert_eq!((position.scores, position.sticks), ([32_000, 35_200, 28_000, 24_800], 0));
    assert_eq!((position.declared, position.dealer, position.hands), ([false; 4], 1, 2));
}

#[test]
fn draws_pay_3_000_in_all() {
    for (bits, scores) in [
        (0b0000, [30_000, 30_000, 30_000, 30_000]),
        (0b1000, [33_000, 29_000, 29_000, 29_000]),
        (0b0001, [29_000, 29_000, 29_000, 33_000]),
        (0b0110, [28_500, 31_500, 31_500, 28_500]),
        (0b1101, [31_000, 31_000, 27_000, 31_000]),
        (0b1111, [30_000, 30_000, 30_000, 30_000]),
    ] {
        let mut position = Position::fresh();
        assert_eq!(draw(&mut position, bits), 0);
        assert_eq!((position.scores, position.hands), (scores, 1));
        assert_eq!(position.dealer, if bits & 8 == 8 { 0 } else { 1 });
    }
}

#[test]
fn a_chombo_gives_back_only_this_hands_sticks() {
    let older = [Entry::Riichi(3), Entry::Draw(1)];
    let mut position = after(&older);
    assert_eq!((position.scores, position.sticks, position.dealer), ([29_000, 29_000, 29_000, 32_000], 1, 1));
    assert_eq!((riichi(&mut position, 0), riichi(&mut position, 2)), (0, 0));
    assert_eq!(chombo(&mut position, 2), 0);
    assert_eq!((position.scores, position.sticks), ([32_000, 32_000, 20_000, 35_000], 1));
    assert_eq!((position.declared, position.dealer, position.hands), ([false; 4], 1, 2));
}

#[test]
fn declared_seats_that_are_not_ready_pay_a_chombo_each() {
    // Sticks of seat 3 from an earlier hand, a counter, and the deal of seat 1.
    let start = after(&[Entry::Riichi(3), Entry::Draw(1)]);
    assert_eq!((start.scores, start.sticks, start.dealer, start.counter), ([29_000, 29_000, 29_000, 32_000], 1, 1, 1));
    for (declared, bits, scores) in [
        (&[1][..], 0b0000, [32_000, 20_000, 32_000, 35_000]),
        (&[1], 0b1011, [32_000, 20_000, 32_000, 35_000]),
        (&[0, 1], 0b1000, [32_000, 20_000, 32_000, 35_000]),
        (&[0, 1], 0b0010, [23_000, 23_000, 35_000, 38_000]),
        (&[0, 1, 2], 0b0000, [26_000, 26_000, 26_000, 41_000]),
        (&[0, 1, 2, 3], 0b0001, [26_000, 26_000, 26_000, 41_000]),
        (&[0, 1, 2, 3], 0b0000, [29_000, 29_000, 29_000, 32_000]),
    ] {
        let mut position = start;
        declared.iter().for_each(|&seat| assert_eq!(riichi(&mut position, seat), 0));
        assert_eq!(draw(&mut position, bits), 0);
        assert_eq!((position.scores, position.sticks, position.declared), (scores, 1, [false; 4]), "{declared:?} {bits:04b}");
        assert_eq!((position.dealer, position.wind, position.hands, position.counter, position.over), (1, 0, 2, 1, false));
    }
    let mut last = Position { dealer: 3, wind: 1, hands: 199, counter: 5, ..Position::fresh() };
    assert_eq!((riichi(&mut last, 0), draw(&mut last, 0)), (0, 0));
    assert_eq!((last.scores, last.dealer, last.hands, last.counter, last.over), ([21_000, 33_000, 33_000, 33_000], 3, 200, 5, true));
}

#[test]
fn the_deal_passes_eight_times() {
    let mut position = Position::fresh();
    let mut deals = Vec::new();
    while !position.over {
        deals.push((position.dealer, position.wind));
        let dealer = position.dealer;
        for keep in [8 >> dealer, 15] {
            assert_eq!(draw(&mut position, keep), 0);
        }
        assert_eq!(chombo(&mut position, dealer), 0);
        assert_eq!(draw(&mut position, 0), 0);
    }
    assert_eq!(deals, [(0, 0), (1, 0), (2, 0), (3, 0), (0, 1), (1, 1), (2, 1), (3, 1)]);
    assert_eq!((position.dealer, position.wind, position.hands), (3, 1, 32));
}

#[test]
fn the_200th_hand_ends_the_game_and_the_deal_passes_as_usual() {
    for (dealer, wind, next) in [(1, 0, (2, 0)), (3, 0, (0, 1)), (3, 1, (3, 1))] {
        let start = Position { dealer, wind, hands: 199, ..Position::fresh() };
        let mut position = start;
        assert_eq!((riichi(&mut position, 0), position.over), (0, false));
        assert_eq!(chombo(&mut position, 0), 0);
        assert_eq!((position.over, position.hands, position.dealer, position.wind), (true, 200, dealer, wind));
        let mut position = start;
        assert_eq!(draw(&mut position, 0), 0);
        assert_eq!((position.over, position.hands, (position.dealer, position.wind)), (true, 200, next));
        let mut position = start;
        let child = (dealer + 1) % 4;
        assert_eq!(win(&mut position, &pinfu(child, (child + 1) % 4, &[])), 0);
        assert_eq!((position.over, position.hands, (position.dealer, position.wind)), (true, 200, next));
        assert_eq!(draw(&mut position, 0), 9);
    }
}

#[test]
fn sticks_left_at_the_end_stay() {
    let mut position = Position { dealer: 3, wind: 1, ..Position::fresh() };
    assert_eq!((riichi(&mut position, 0), draw(&mut position, 8)), (0, 0));
    assert_eq!((position.over, position.sticks, position.scores), (true, 1, [32_000, 29_000, 29_000, 29_000]));
}

#[test]
fn a_position_may_be_at_the_ends_of_its_range() {
    let most = Position { scores: [FLOOR; 4], sticks: 114_280, ..Position::fresh() };
    let mut position = most;
    assert_eq!(win(&mut position, &pinfu(1, 3, &[])), 0);
    assert_eq!(position.scores, [FLOOR, FLOOR + 114_280_000 + 2000, FLOOR, FLOOR - 2000]);
    assert_eq!(riichi(&mut position, 1), 9);
    let mut position = most;
    assert_eq!((riichi(&mut position, 0), position), (21, most));
    assert_eq!(draw(&mut position, 0b0001), 0);
    assert_eq!(
        (position.scores, position.sticks, position.is_open()),
        ([FLOOR - 1000, FLOOR - 1000, FLOOR - 1000, FLOOR + 3000], 114_280, false)
    );
}

#[test]
fn the_counter_rises_at_a_dealers_win_and_a_draw_and_clears_at_a_childs_win() {
    let mut position = Position::fresh();
    let counters: Vec<u32> = [
        Entry::Draw(0b1000),
        Entry::Riichi(2),
        Entry::Chombo(2),
        Entry::Win(pinfu(0, 3, &[])),
        Entry::Draw(0b0000),
        Entry::Win(pinfu(1, 3, &[])),
        Entry::Win(pinfu(1, 3, &["riichi"])),
        Entry::Win(pinfu(2, 3, &[])),
        Entry::Win(pinfu(2, 3, &[])),
    ]
    .iter()
    .map(|entry| {
        book(&mut position, entry);
        position.counter
    })
    .collect();
    assert_eq!(counters, [1, 1, 1, 2, 3, 4, 4, 0, 1]);
}

#[test]
fn counters_are_paid_by_the_ron_payer_or_by_each_on_tsumo() {
    let start = Position { counter: 7, hands: 7, ..Position::fresh() };
    let tsumo = |seat: &str| record(&["234567m345p67s22s+8s", seat, "tsumo"]);
    for (win, scores, counter) in [
        (pinfu(1, 3, &[]), [30_000, 34_100, 30_000, 25_900], 0),
        (pinfu(0, 3, &[]), [35_000, 30_000, 30_000, 25_000], 8),
        (tsumo("seat=1"), [28_000, 34_800, 28_600, 28_600], 0),
        (tsumo("seat=0"), [36_000, 28_000, 28_000, 28_000], 8),
    ] {
        let mut position = start;
        assert_eq!(book(&mut position, &Entry::Win(win)), 0);
        assert_eq!((position.scores, position.counter), (scores, counter));
    }
}

/// The pao of a holder and a feeder.
fn pao_of(holder: u8, feeder: u8, yaku: u8) -> Entry {
    Entry::Pao { holder, feeder, yaku }
}

const DRAGONS: &str = "234mPPPFFFCC99p+C";
const WINDS: &str = "EEESSSWWWNN99p+N";
const THREE_WINDS: &str = "EEESSSWWNN789p+W";

/// A yakuman won by a seat, from another or by tsumo.
fn yakuman(tiles: &str, seat: u8, from: Option<u8>) -> Entry {
    let how = from.map_or("tsumo".to_string(), |from| format!("ron={from}"));
    Entry::Win(record(&[tiles, &format!("seat={seat}"), &how, "indicator=5s"]))
}

#[test]
fn pao_refuses_8_9_18() {
    let named = after(&[pao_of(1, 3, 28)]);
    for position in not_open().into_iter().chain([Position { over: true, ..named }]) {
        for (holder, feeder) in [(4, 0), (0, 4), (4, 4), (255, 1), (1, 255)] {
            assert_eq!(number(&position, pao_of(holder, feeder, 28)), 8);
            assert_eq!(number(&position, pao_of(holder, feeder, 27)), 8);
        }
        for entry in [pao_of(2, 3, 28), pao_of(2, 2, 28), pao_of(2, 3, 30), pao_of(1, 3, 28)] {
            assert_eq!(number(&position, entry), 9);
        }
    }
    for yaku in 0..=255 {
        let fits = yaku == 28 || yaku == 29;
        assert_eq!(number(&Position::fresh(), pao_of(2, 0, yaku)), if fits { 0 } else { 18 });
        assert_eq!(number(&Position::fresh(), pao_of(2, 2, yaku)), 18);
    }
    // Named already, with whatever feeder; another holder, or the other yaku, is free.
    for (entry, refusal) in
        [(pao_of(1, 3, 28), 18), (pao_of(1, 0, 28), 18), (pao_of(1, 3, 29), 0), (pao_of(2, 3, 28), 0), (pao_of(3, 1, 28), 0)]
    {
        assert_eq!(number(&named, entry), refusal);
    }
}

#[test]
fn a_pao_names_its_place_alone() {
    let mut position = Position::fresh();
    assert_eq!((pao(&mut position, 1, 3, 28), pao(&mut position, 0, 2, 29), riichi(&mut position, 2)), (0, 0, 0));
    assert_eq!(position, Position { feeders: [0, 4, 0, 0, 3, 0, 0, 0], ..after(&[Entry::Riichi(2)]) });
}

#[test]
fn the_feeder_pays_on_tsumo_and_half_by_ron() {
    let start = Position { counter: 2, hands: 2, ..Position::fresh() };
    let (dragons, winds) = (28, 29);
    for (tiles, yaku, feeder, seat, from, scores) in [
        // A child's 32,000 and 600 for two counters.
        (DRAGONS, dragons, 3, 1, None, [30_000, 62_600, 30_000, -2600]),
        (WINDS, winds, 0, 1, None, [-2600, 62_600, 30_000, 30_000]),
        (DRAGONS, dragons, 3, 1, Some(2), [30_000, 62_600, 13_400, 14_000]),
        (WINDS, winds, 0, 1, Some(3), [14_000, 62_600, 30_000, 13_400]),
        (DRAGONS, dragons, 3, 1, Some(3), [30_000, 62_600, 30_000, -2600]),
        // The dealer's 48,000.
        (WINDS, winds, 2, 0, None, [78_600, 30_000, -18_600, 30_000]),
        (DRAGONS, dragons, 2, 0, Some(1), [78_600, 5400, 6000, 30_000]),
        (WINDS, winds, 2, 0, Some(2), [78_600, 30_000, -18_600, 30_000]),
        // Paid plainly: the other yaku, another holder, three winds and a pair.
        (DRAGONS, winds, 3, 1, None, [13_800, 62_600, 21_800, 21_800]),
        (WINDS, dragons, 3, 1, Some(2), [30_000, 62_600, -2600, 30_000]),
        (DRAGONS, dragons, 3, 2, None, [13_800, 21_800, 62_600, 21_800]),
        (THREE_WINDS, winds, 3, 1, None, [13_800, 62_600, 21_800, 21_800]),
        (THREE_WINDS, winds, 3, 1, Some(2), [30_000, 62_600, -2600, 30_000]),
    ] {
        let mut position = start;
        let holder = if seat == 0 { 0 } else { 1 };
        assert_eq!((book(&mut position, &pao_of(holder, feeder, yaku)), book(&mut position, &yakuman(tiles, seat, from))), (0, 0));
        assert_eq!((position.scores, position.feeders), (scores, [0; 8]), "{tiles} {yaku} {feeder} {seat} {from:?}");
        assert_eq!((position.dealer, position.counter, position.hands), if seat == 0 { (0, 3, 3) } else { (1, 0, 3) });
    }
}

#[test]
fn the_winner_paid_by_pao_takes_all_sticks() {
    let start = [Entry::Riichi(3), Entry::Draw(1), Entry::Riichi(0), pao_of(2, 1, 28), Entry::Riichi(3), yakuman(DRAGONS, 2, None)];
    let position = after(&start);
    assert_eq!((position.scores, position.sticks), ([28_000, 29_000 - 32_300, 29_000 + 32_300 + 3000, 31_000], 0));
}

#[test]
fn melded_triplets_and_kans_count_for_pao() {
    let mut position = after(&[pao_of(3, 0, 29)]);
    let winds = record(&["5s+5s", "pon=EEE", "kan=SSSS", "ankan=WWWW", "pon=NNN", "seat=3", "ron=2", "indicator=1m"]);
    assert_eq!((win(&mut position, &winds), position.scores), (0, [14_000, 30_000, 14_000, 62_000]));
    let mut position = after(&[pao_of(3, 0, 28)]);
    let dragons = record(&["44s67p+5p", "pon=PPP", "kan=FFFF", "ankan=CCCC", "seat=3", "tsumo", "indicator=1m"]);
    assert_eq!((win(&mut position, &dragons), position.scores), (0, [-2000, 30_000, 30_000, 62_000]));
}

#[test]
fn feeders_lapse_at_each_end_of_a_hand() {
    let plain = after(&[Entry::Chombo(0), yakuman(WINDS, 0, None)]);
    assert_eq!(plain.scores, [21_000 + 48_000, 33_000 - 16_000, 33_000 - 16_000, 33_000 - 16_000]);
    for end in [Entry::Chombo(0), Entry::Draw(0b1000), Entry::Draw(0b1111), Entry::Win(pinfu(0, 3, &[]))] {
        let mut position = after(&[pao_of(0, 1, 29), pao_of(2, 1, 29)]);
        assert_eq!(position.feeders, [0, 0, 0, 0, 2, 0, 2, 0]);
        assert_eq!((book(&mut position, &end), position.feeders), (0, [0; 8]));
        let before = position.scores;
        let more = 16_000 + 100 * position.counter as i32;
        assert_eq!(book(&mut position, &yakuman(WINDS, 0, None)), 0);
        assert_eq!(position.scores, [before[0] + 3 * more, before[1] - more, before[2] - more, before[3] - more]);
    }
    let mut position = after(&[pao_of(0, 1, 29), Entry::Riichi(2)]);
    assert_eq!((position.feeders[4], draw(&mut position, 0), position.feeders), (2, 0, [0; 8]));
    let mut position = after(&[pao_of(0, 1, 29), pao_of(0, 2, 28)]);
    assert_eq!((book(&mut position, &yakuman(WINDS, 0, None)), position.feeders), (0, [0; 8]));
    assert_eq!(number(&position, pao_of(0, 1, 29)), 0);
}

/// A multiple ron of these records.
fn rons(records: &[Vec<u8>]) -> Entry {
    Entry::MultiRon { number: records.len() as u8, records: records.concat() }
}

/// The first hand of the table, won by some seats from another.
fn pinfus(seats: &[u8], from: u8) -> Vec<Vec<u8>> {
    seats.iter().map(|&seat| pinfu(seat, from, &[])).collect()
}

#[test]
fn each_winner_of_a_multiple_ron_is_paid_and_the_first_takes_sticks_and_counters() {
    // Two counters and a stick of seat 3.
    let start = Position { counter: 2, hands: 2, ..after(&[Entry::Riichi(3)]) };
    assert_eq!(start.scores, [30_000, 30_000, 30_000, 29_000]);
    for (seats, from, scores, dealer, counter) in [
        (&[1][..], 3, [30_000, 33_600, 30_000, 26_400], 1, 0),
        (&[0], 3, [34_500, 30_000, 30_000, 25_500], 0, 3),
        (&[1, 2], 3, [30_000, 33_600, 32_000, 24_400], 1, 0),
        (&[2, 1], 3, [30_000, 33_600, 32_000, 24_400], 1, 0),
        (&[2, 1], 0, [25_400, 33_600, 32_000, 29_000], 1, 0),
        (&[0, 2], 1, [32_900, 24_500, 33_600, 29_000], 0, 3),
        (&[1, 0], 2, [34_500, 32_000, 24_500, 29_000], 0, 3),
        (&[2, 0, 1], 3, [34_500, 32_000, 32_000, 21_500], 0, 3),
        (&[0, 1, 2], 3, [34_500, 32_000, 32_000, 21_500], 0, 3),
    ] {
        let mut position = start;
        assert_eq!(book(&mut position, &rons(&pinfus(seats, from))), 0);
        assert_eq!((position.scores, position.sticks, position.declared), (scores, 0, [false; 4]), "{seats:?} from {from}");
        assert_eq!((position.dealer, position.counter, position.hands, position.over), (dealer, counter, 3, false));
    }
    // A multiple ron of one is its win.
    for (seat, from) in [(0, 1), (1, 0), (2, 3), (3, 2)] {
        let (mut one, mut other) = (start, start);
        let riichi: &[&str] = if seat == 3 { &["riichi"] } else { &[] };
        let record = pinfu(seat, from, riichi);
        assert_eq!((multi_ron(&mut one, 1, &record), win(&mut other, &record), one), (0, 0, other));
    }
}

#[test]
fn the_200th_hand_may_be_a_multiple_ron() {
    for (dealer, seats, next) in [(3, &[0, 1][..], 3), (3, &[3, 1], 3), (1, &[0, 3], 2), (1, &[1, 3], 1)] {
        let mut position = Position { dealer, wind: 1, hands: 199, counter: 4, ..Position::fresh() };
        assert_eq!(book(&mut position, &rons(&pinfus(seats, 2))), 0);
        let stays = seats.contains(&dealer);
        assert_eq!((position.over, position.hands, position.dealer, position.counter), (true, 200, next, if stays { 5 } else { 0 }));
    }
}

#[test]
fn a_multiple_ron_refuses_9_17_then_read_then_17_then_6_7_11() {
    let sound = pinfus(&[1, 2], 3);
    for position in not_open() {
        for number in [0, 1, 2, 3, 4, 255] {
            assert_eq!(number_of(&position, number, &sound.concat()), 9);
            assert_eq!(number_of(&position, number, &[]), 9);
        }
    }
    let open = Position::fresh();
    for number in [0].into_iter().chain(4..=255) {
        assert_eq!(number_of(&open, number, &sound.concat()), 17);
        assert_eq!(number_of(&open, number, &[]), 17);
    }
    // Each unsound record, first, second and third, whatever the others lack; the first one's refusal is given.
    let tsumo = record(&["234567m345p67s22s+8s", "seat=1", "tsumo"]);
    for (at, unsound) in refused().into_iter().enumerate().take(5) {
        let refusal = at as u8 + 1;
        // The record that is cut takes a byte of the next one, which is cut then.
        for rest in [
            vec![tsumo.clone()],
            vec![sound[0].clone(), sound[0].clone()],
            vec![record(&["456p78s234s99p+9s", "chi=123m", "seat=1", "ron=3"])],
        ] {
            for place in 0..=rest.len() {
                let mut list = rest.clone();
                list.insert(place, unsound.clone());
                if refusal != 1 || place == rest.len() {
                    assert_eq!(number(&open, rons(&list)), refusal, "record {place} of {}", list.len());
                }
            }
        }
        for (later, other) in refused().into_iter().enumerate().take(5) {
            if refusal > 1 {
                assert_eq!(number(&open, rons(&[sound[0].clone(), unsound.clone(), other])), refusal, "before {}", later + 1);
            }
        }
    }
    // The last has all that is left; a record that is missing is 1.
    assert_eq!(number_of(&open, 2, &sound[0]), 1);
    assert_eq!(number_of(&open, 1, &sound.concat()), 1);
    assert_eq!(number_of(&open, 3, &sound.concat()), 1);
    assert_eq!(number_of(&open, 1, &[]), 1);
    assert_eq!(number_of(&open, 2, &[sound.concat(), vec![0]].concat()), 1);
    for length in 0..26 {
        assert_eq!(number_of(&open, 2, &sound.concat()[..length]), 1, "{length} bytes");
    }
    assert_eq!(number_of(&open, 2, &sound.concat()), 0);
}

/// The refusal of so many records.
fn number_of(position: &Position, number_of_records: u8, records: &[u8]) -> u8 {
    number(position, Entry::MultiRon { number: number_of_records, records: records.to_vec() })
}

#[test]
fn a_multiple_ron_refuses_17_before_6_7_and_11() {
    let open = Position::fresh();
    let one = pinfu(1, 3, &[]);
    let other = |words: &[&str]| record(words);
    let unfit = [
        pinfu(1, 3, &[]),
        pinfu(2, 0, &[]),
        other(&["234567m345p67s22s+8s", "seat=2", "tsumo"]),
        other(&["234567m345p78s22s+6s", "seat=2", "ron=3"]),
        pinfu(2, 3, &["indicator=E"]),
        pinfu(2, 3, &["last"]),
    ];
    let no_reading = other(&["1111m44m77m22p55p8s+8s", "seat=2", "ron=3"]);
    let no_yaku = other(&["456p79s234s99p+8s", "chi=123m", "seat=2", "ron=3"]);
    let undeclared = pinfu(2, 3, &["riichi"]);
    for second in &unfit {
        assert_eq!(number(&open, rons(&[one.clone(), second.clone()])), 17);
        assert_eq!(number(&open, rons(&[second.clone(), one.clone()])), 17);
        for third in [&no_reading, &no_yaku, &undeclared] {
            assert_eq!(number(&open, rons(&[one.clone(), second.clone(), third.clone()])), 17);
        }
    }
    assert_eq!(number(&open, rons(&[other(&["234567m345p67s22s+8s", "seat=1", "tsumo"])])), 17);
    for (record, refusal) in [(&no_reading, 6), (&no_yaku, 7), (&undeclared, 11)] {
        assert_eq!(number(&open, rons(std::slice::from_ref(record))), refusal);
        assert_eq!(number(&open, rons(&[record.clone(), one.clone()])), refusal);
        assert_eq!(number(&open, rons(&[one.clone(), record.clone()])), refusal);
        assert_eq!(number(&open, rons(&[one.clone(), record.clone(), pinfu(0, 3, &["riichi"])])), refusal);
        assert_eq!(number(&open, rons(&[pinfu(0, 3, &["riichi"]), record.clone(), one.clone()])), 11);
    }
    // Seat 1 has declared: its record needs riichi, and others none.
    let declared = after(&[Entry::Riichi(1)]);
    assert_eq!(number(&declared, rons(&[one.clone(), pinfu(2, 3, &[])])), 11);
    assert_eq!(number(&declared, rons(&[pinfu(1, 3, &["riichi"]), pinfu(2, 3, &["double"])])), 11);
    assert_eq!(number(&declared, rons(&[pinfu(1, 3, &["double"]), pinfu(2, 3, &[])])), 0);
}

#[test]
fn article_67_holds_for_each_record_of_a_multiple_ron() {
    let dragons = |seat: u8, from: u8| record(&["234m99pPPPFFFCC+C", &format!("seat={seat}"), &format!("ron={from}"), "indicator=5s"]);
    let pair = |seat: u8, from: u8| record(&["19m19p19sESWNPFC+C", &format!("seat={seat}"), &format!("ron={from}"), "indicator=5s"]);
    let start = Position { counter: 2, hands: 2, ..after(&[Entry::Riichi(1)]) };
    for (paos, records, scores) in [
        // Seat 2's feeder is seat 0, which wins too; seat 3 discards: 48,000 to the dealer, with counters and stick, and 16,000 of 32,000.
        (&[(2, 0)][..], [pair(0, 3), dragons(2, 3)], [30_000 + 49_600 - 16_000, 29_000, 62_000, 30_000 - 48_600 - 16_000]),
        // The discarder is the feeder: it pays all.
        (&[(2, 3)], [pair(0, 3), dragons(2, 3)], [79_600, 29_000, 62_000, 30_000 - 48_600 - 32_000]),
        // Seat 1 is the feeder of the dealer and of seat 2.
        (&[(0, 1), (2, 1)], [dragons(2, 3), dragons(0, 3)], [79_600, 29_000 - 40_000, 62_000, 30_000 - 40_600]),
        // Each is the feeder of the other.
        (&[(0, 2), (2, 0)], [dragons(2, 3), dragons(0, 3)], [79_600 - 16_000, 29_000, 62_000 - 24_000, 30_000 - 40_600]),
        // A feeder of a seat that does not win.
        (&[(1, 2)], [pair(0, 3), dragons(2, 3)], [79_600, 29_000, 62_000, 30_000 - 48_600 - 32_000]),
    ] {
        let mut position = start;
        paos.iter().for_each(|&(holder, feeder)| assert_eq!(pao(&mut position, holder, feeder, 28), 0));
        assert_eq!(book(&mut position, &rons(&records)), 0);
        assert_eq!((position.scores, position.feeders, position.sticks, position.total()), (scores, [0; 8], 0, 120_000), "{paos:?}");
    }
}

/// Results of each kind that a fresh game accepts, the seats that have declared not among the winners.
fn results() -> Vec<Entry> {
    vec![
        Entry::Win(pinfu(1, 3, &[])),
        Entry::Win(pinfu(0, 3, &[])),
        yakuman(WINDS, 1, None),
        Entry::Draw(0b1000),
        Entry::Draw(0b0001),
        Entry::Draw(0b0100),
        Entry::Chombo(0),
        Entry::Chombo(3),
        rons(&pinfus(&[1, 2], 3)),
        rons(&pinfus(&[0, 1], 2)),
    ]
}

/// A game after entries from a fresh one, each with its number.
fn booked(list: &[(Entry, u8)]) -> Game {
    let mut game = Game::fresh();
    for (entry, number) in list {
        let before = game.clone();
        assert_eq!(game.book(entry), *number, "{entry:?}");
        assert!(*number == 0 || game == before);
    }
    game
}

/// The number of an entry in a game, of which a refused one changes nothing.
fn number_in(game: &Game, entry: Entry) -> u8 {
    let mut after = game.clone();
    let number = after.book(&entry);
    assert!(number == 0 || after == *game);
    number
}

/// Corrections of each kind.
fn corrections() -> Vec<Entry> {
    results().into_iter().map(Entry::as_correction).collect()
}

#[test]
fn a_correction_is_as_if_the_superseded_booking_was_never_made() {
    // A stick of seat 3 and a counter from the hand before; then riichi of seat 3 and feeders.
    let first = [Entry::Riichi(3), Entry::Draw(0b0001), Entry::Riichi(3), pao_of(1, 0, 29), pao_of(2, 3, 28)];
    for old in results() {
        for new in results() {
            let wanted = after(&[&first[..], std::slice::from_ref(&new)].concat());
            let list: Vec<(Entry, u8)> = first.iter().cloned().chain([old.clone(), new.as_correction()]).map(|entry| (entry, 0)).collect();
            let game = booked(&list);
            assert_eq!(game.now(), &wanted, "{old:?}");
            assert_eq!(game.earlier(), Some(after(&first)));
            assert_eq!(game.replayed(), Some(wanted));
        }
    }
}

#[test]
fn what_a_correction_gives_back() {
    // Two sticks, two counters, the deal of seat 1, seats 0 and 2 declared, seat 3 named for seat 1's dragons.
    let start = Position {
        scores: [29_000, 30_000, 29_000, 30_000],
        sticks: 2,
        declared: [true, false, true, false],
        dealer: 1,
        hands: 5,
        ..Position::fresh()
    };
    let start = Position { counter: 2, feeders: [0, 4, 0, 0, 0, 0, 0, 0], ..start };
    let mut game = Game::lent(start, None);
    assert_eq!(game.book(&Entry::Win(pinfu(3, 1, &[]))), 0);
    let won = *game.now();
    assert_eq!((won.scores, won.sticks, won.declared), ([29_000, 27_400, 29_000, 34_600], 0, [false; 4]));
    assert_eq!((won.dealer, won.hands, won.counter, won.feeders), (2, 6, 0, [0; 8]));
    // It was the dealer, with dragons, by tsumo: seat 3, the feeder, pays 48,000 and 600; the sticks are the dealer's, and the deal stays.
    assert_eq!(game.book(&yakuman(DRAGONS, 1, None).as_correction()), 0);
    let won = *game.now();
    assert_eq!((won.scores, won.sticks, won.declared), ([29_000, 80_600, 29_000, -18_600], 0, [false; 4]));
    assert_eq!((won.dealer, won.hands, won.counter, won.feeders), (1, 6, 3, [0; 8]));
    // It was no win: seat 0 had declared and was not ready, a chombo of his; the sticks of this hand go back.
    assert_eq!(game.book(&Entry::Draw(0b0010).as_correction()), 0);
    let drawn = *game.now();
    assert_eq!((drawn.scores, drawn.sticks, drawn.dealer, drawn.hands, drawn.counter), ([21_000, 33_000, 33_000, 33_000], 0, 1, 6, 2));
}

#[test]
fn none_to_supersede_is_20() {
    for new in corrections() {
        assert_eq!(number_in(&Game::fresh(), new.clone()), 20);
        let won = booked(&[(Entry::Win(pinfu(1, 3, &[])), 0)]);
        for since in [Entry::Riichi(3), pao_of(1, 3, 28)] {
            let mut game = won.clone();
            assert_eq!((game.book(&since), number_in(&game, new.clone())), (0, 20));
            // The next result can be put right again.
            assert_eq!((game.book(&Entry::Chombo(0)), number_in(&game, new.clone())), (0, 0));
        }
        // Bookings that are refused are none.
        let list = [
            (Entry::Riichi(4), 8),
            (pao_of(1, 1, 28), 18),
            (Entry::Draw(16), 8),
            (Entry::Win(vec![]), 1),
            (Entry::Chombo(4).as_correction(), 8),
        ];
        let mut game = won.clone();
        list.iter().for_each(|(entry, number)| assert_eq!(game.book(entry), *number));
        assert_eq!((&game, number_in(&game, new.clone())), (&won, 0));
    }
}

#[test]
fn a_correction_can_itself_be_superseded() {
    let mut game = booked(&[(Entry::Riichi(3), 0), (Entry::Draw(0b0001), 0)]);
    for new in results() {
        assert_eq!(game.book(&new.clone().as_correction()), 0);
        assert_eq!((*game.now(), game.standing()), (after(&[Entry::Riichi(3), new.clone()]), vec![&Entry::Riichi(3), &new]));
    }
}

#[test]
fn where_the_new_booking_is_refused_the_old_one_stands() {
    // Seat 1 declared in the hand that is put right.
    let game = booked(&[(Entry::Riichi(1), 0), (Entry::Draw(0b0100), 0)]);
    for (at, record) in refused().into_iter().enumerate() {
        assert_eq!(number_in(&game, Entry::Win(record).as_correction()), at as u8 + 1);
    }
    for (new, number) in [
        (Entry::Win(pinfu(1, 3, &[])), 11),
        (Entry::Win(pinfu(1, 3, &["riichi"])), 0),
        (Entry::Win(pinfu(2, 3, &["riichi"])), 11),
        (Entry::Draw(16), 8),
        (Entry::Draw(255), 8),
        (Entry::Chombo(4), 8),
        (Entry::MultiRon { number: 0, records: vec![] }, 17),
        (Entry::MultiRon { number: 2, records: pinfu(2, 3, &[]) }, 1),
        (rons(&pinfus(&[2, 2], 3)), 17),
        (rons(&pinfus(&[1, 2], 3)), 11),
        (rons(&[pinfu(1, 3, &["riichi"]), pinfu(2, 3, &[])]), 0),
    ] {
        assert_eq!(number_in(&game, new.clone().as_correction()), number, "{new:?}");
    }
}

#[test]
fn a_result_that_ended_the_game_is_put_right() {
    // South's seat 3 deals, and a child wins.
    let start = Position { dealer: 3, wind: 1, hands: 7, counter: 2, ..Position::fresh() };
    let mut game = Game::lent(start, None);
    assert_eq!((game.book(&Entry::Win(pinfu(1, 3, &[]))), game.now().over), (0, true));
    for entry in [Entry::Riichi(0), Entry::Draw(0), pao_of(0, 1, 28)] {
        assert_eq!(number_in(&game, entry), 9);
    }
    for (new, over, counter) in [
        (Entry::Win(pinfu(3, 1, &[])), false, 3),
        (Entry::Draw(0), true, 3),
        (Entry::Draw(1), false, 3),
        (Entry::Chombo(1), false, 2),
        (rons(&pinfus(&[0, 3], 1)), false, 3),
        (rons(&pinfus(&[0, 1], 2)), true, 0),
    ] {
        let mut plain = start;
        assert_eq!((game.book(&new.clone().as_correction()), other_scorer::position::book(&mut plain, &new)), (0, 0));
        assert_eq!((*game.now(), plain.over, plain.counter, plain.dealer, plain.wind, plain.hands), (plain, over, counter, 3, 1, 8));
        // Play goes on, and then there is none to supersede.
        let mut next = game.clone();
        assert_eq!((next.book(&Entry::Riichi(0)), number_in(&next, Entry::Chombo(0).as_correction())), if over { (9, 0) } else { (0, 20) });
    }
    // The 200th hand: whatever it was, it is finished.
    let start = Position { hands: 199, counter: 4, ..Position::fresh() };
    let mut game = Game::lent(start, None);
    assert_eq!(game.book(&Entry::Chombo(2)), 0);
    for new in results() {
        let mut plain = start;
        assert_eq!((game.book(&new.clone().as_correction()), other_scorer::position::book(&mut plain, &new)), (0, 0));
        assert_eq!((*game.now(), plain.over, plain.hands), (plain, true, 200));
        assert_eq!(number_in(&game, Entry::Riichi(0)), 9);
    }
}

/// Bookings that a fresh game accepts, and some with an argument out of range.
fn bookings() -> Vec<(Entry, bool)> {
    let out = [Entry::Riichi(4), Entry::Draw(16), Entry::Chombo(4), pao_of(4, 0, 28), pao_of(0, 4, 28)];
    let fit = results().into_iter().chain([Entry::Riichi(0), pao_of(1, 3, 28)]);
    fit.map(|booking| (booking, false)).chain(out.map(|booking| (booking, true))).collect()
}

#[test]
fn twenty_comes_before_all_else_but_9_for_a_game_out_of_form() {
    let unfit = [Entry::Draw(16), Entry::Chombo(4), Entry::Win(vec![]), Entry::MultiRon { number: 0, records: vec![] }];
    for position in not_open() {
        let over = position.is_in_form();
        for new in corrections().into_iter().chain(unfit.clone().map(Entry::as_correction)) {
            assert_eq!(number_in(&Game::lent(position, None), new.clone()), if over { 20 } else { 9 });
            // With a result to supersede a position that is over is no hindrance, one out of form is.
            let wanted = other_scorer::position::book(
                &mut Position::fresh(),
                match &new {
                    Entry::Correction(new) => new,
                    _ => unreachable!("a correction"),
                },
            );
            assert_eq!(number_in(&Game::lent(position, Some(Position::fresh())), new), if over { wanted } else { 9 });
        }
    }
    for new in unfit {
        assert_eq!(number_in(&Game::fresh(), new.as_correction()), 20);
    }
}

#[test]
fn an_earlier_position_out_of_form_is_9_for_every_booking() {
    for earlier in not_open().into_iter().filter(|position| !position.is_in_form()) {
        let game = Game::lent(Position::fresh(), Some(earlier));
        for (booking, out) in bookings() {
            assert_eq!(number_in(&game, booking), if out { 8 } else { 9 });
        }
        // A correction's own argument comes after it.
        for new in corrections().into_iter().chain([Entry::Draw(16).as_correction(), Entry::Chombo(4).as_correction()]) {
            assert_eq!(number_in(&game, new), 9);
        }
    }
}

#[test]
fn an_earlier_position_that_is_over_is_the_new_bookings_9() {
    for earlier in not_open().into_iter().filter(Position::is_in_form) {
        let game = Game::lent(Position::fresh(), Some(earlier));
        for (booking, out) in bookings() {
            assert_eq!(number_in(&game, booking), if out { 8 } else { 0 });
        }
        for new in corrections() {
            assert_eq!(number_in(&game, new), 9);
        }
        for new in [Entry::Draw(16), Entry::Chombo(4)] {
            assert_eq!(number_in(&game, new.as_correction()), 8);
        }
        for new in [Entry::Win(vec![]), Entry::MultiRon { number: 0, records: vec![] }] {
            assert_eq!(number_in(&game, new.as_correction()), 9);
        }
    }
}

#[test]
fn a_position_alone_has_no_result_to_supersede() {
    for position in not_open().into_iter().chain([Position::fresh(), after(&[Entry::Chombo(1)])]) {
        for new in corrections() {
            assert_eq!(number(&position, new), if position.is_in_form() { 20 } else { 9 });
        }
    }
}
