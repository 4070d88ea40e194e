//! Every reading with what it is worth, with a yaku or not, and the reported one among them.

use other_scorer::codec::pack;
use other_scorer::notation::parse;
use other_scorer::reading::Reading;
use other_scorer::rng::Rng;
use other_scorer::score::{has_yakuman, valued};
use other_scorer::shown::{all, nth, Shown};
use other_scorer::vector::make;
use other_scorer::{read, score};

/// The record of a hand in notation.
fn record(line: &str) -> Vec<u8> {
    pack(&parse(&line.split(' ').collect::<Vec<_>>()).expect("notation"))
}

/// All readings of a hand in notation, dealer 0, East.
fn shown(line: &str) -> Vec<Shown> {
    all(&record(line), 0, 0).expect("a sound hand")
}

/// The yaku listed with their han.
fn listed(shown: &Shown) -> Vec<(usize, u8)> {
    (1..37).filter(|n| shown.value.yaku >> n & 1 == 1).map(|n| (n, shown.value.han[n])).collect()
}

#[test]
fn seven_pairs_beside_a_regular_reading() {
    let two = shown("112233m778899p5s+5s seat=1 ron=3");
    let figures = |one: &Shown| (one.value.h, one.value.dora, one.value.fu, one.value.basic, one.value.gain, one.reported);
    assert_eq!(two.iter().map(figures).collect::<Vec<_>>(), [(3, 0, 40, 1280, 5200, true), (2, 0, 25, 400, 1600, false)]);
    assert_eq!(two.iter().map(listed).collect::<Vec<_>>(), [vec![(21, 3)], vec![(12, 2)]]);
    assert_eq!(two[1].reading, Reading::SevenPairs);
}

#[test]
fn without_a_yaku_nobody_pays() {
    let one = &shown("456p78s234s99p+9s chi=123m seat=1 ron=3 indicator=8p")[..];
    let [Shown { value, reported: false, .. }] = one else { panic!("{one:?}") };
    assert_eq!((value.h, value.dora, value.fu, value.basic, value.gain), (2, 2, 30, 0, 0));
    assert_eq!((value.items.list(), value.changes, value.yaku), ([20, 0, 0, 0, 0, 0, 0, 0, 0, 10], [0; 4], 0));
    assert_eq!(value.han, [0; 37]);
}

#[test]
fn han_of_an_open_hand() {
    let one = shown("123m12p99p+3p chi=123s pon=EEE seat=0 ron=3 indicator=8p");
    assert_eq!(listed(&one[0]), [(3, 2), (13, 1), (15, 1)]);
    assert_eq!((one[0].value.dora, one[0].value.h, one[0].value.basic, one[0].reported), (2, 6, 3000, true));
}

#[test]
fn nothing_ends_at_a_yakuman() {
    let list = shown("1122333444555m+2m seat=1 tsumo");
    assert_eq!((list.len(), score(&record("1122333444555m+2m seat=1 tsumo"), 0, 0).tried), (8, 5));
    let yakuman: Vec<bool> = list.iter().map(|one| has_yakuman(one.value.yaku)).collect();
    assert_eq!(yakuman, [false, false, false, false, true, false, false, false]);
    let value = &list[4].value;
    assert_eq!((value.h, value.dora, value.fu, value.basic, value.gain, value.han), (0, 0, 0, 8000, 32_000, [0; 37]));
}

#[test]
fn refused() {
    let line_1 = record("234567m345p67s22s+8s seat=1 ron=3");
    for (dealer, wind) in [(4, 0), (0, 2), (255, 255)] {
        assert_eq!(all(&line_1, dealer, wind), Err(8));
        assert_eq!(all(&[], dealer, wind), Err(8));
    }
    assert_eq!(all(&line_1[..12], 0, 0), Err(1));
    let none = all(&record("1111m44m77m22p55p8p+8p seat=1 ron=3"), 0, 0);
    assert_eq!((none.as_ref().map(Vec::len), nth(&none, 0), nth(&none, 1)), (Ok(0), Err(8), Err(8)));
    let one = all(&line_1, 0, 0);
    assert_eq!((nth(&one, 0), nth(&one, 1).map(|one| one.reported), nth(&one, 2), nth(&one, u32::MAX)), (Err(8), Ok(true), Err(8), Err(8)));
    assert_eq!(nth(&all(&line_1[..12], 0, 0), 0), Err(1));
}

#[test]
fn the_reported_one_has_the_figures_of_score() {
    let mut rng = Rng::new(37);
    let (mut many, mut without) = (0, 0);
    for index in 0..20_000 {
        let vector = make(&mut rng, index);
        let (Ok(hand), Ok(list)) = (read(&vector.record), all(&vector.record, vector.dealer, vector.wind)) else { continue };
        let plain = valued(&hand, vector.dealer, vector.wind);
        assert_eq!(list.iter().map(|one| &one.reading).collect::<Vec<_>>(), plain.iter().map(|one| &one.0).collect::<Vec<_>>());
        for (one, (_, value)) in list.iter().zip(&plain) {
            let own = one.value;
            assert_eq!(Some(own).filter(|own| own.yaku != 0), *value);
            assert_eq!(own.han.iter().sum::<u8>() + own.dora, own.h);
            assert_eq!(own.items.total(), own.fu);
            assert_eq!((own.changes.iter().sum::<i32>(), own.changes[hand.winner as usize]), (0, own.gain));
            assert_eq!(own.yaku == 0, own.gain == 0);
            without += (own.yaku == 0) as usize;
        }
        let reported: Vec<&Shown> = list.iter().filter(|one| one.reported).collect();
        match (reported[..].first(), vector.scored.refusal) {
            (Some(one), 0) => {
                let scored = vector.scored;
                let own = one.value;
                assert_eq!(
                    (own.h, own.fu, own.items, own.yaku, own.changes),
                    (scored.h, scored.fu, scored.items, scored.yaku, scored.changes)
                );
                assert!(list.iter().all(|other| other.value.gain <= own.gain));
            }
            (None, 6 | 7) => {}
            _ => panic!("{vector:?}"),
        }
        assert!(reported.len() < 2);
        many += (list.len() > 1) as usize;
    }
    assert!(many > 2000 && without > 500, "{many} {without}");
}
