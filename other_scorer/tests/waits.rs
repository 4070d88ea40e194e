//! Waits (02, S-1), by hand and against the readings of random hands.

use other_scorer::deal::{drawn, near, themed};
use other_scorer::notation::{text, tiles};
use other_scorer::reading::readings;
use other_scorer::record::{Meld, CLOSED_KAN, PON};
use other_scorer::rng::Rng;
use other_scorer::unfinished::{length, pack, read, Unfinished};
use other_scorer::waits::{find, waits, Waits};

/// An unfinished hand from its tiles and melds.
fn hand(concealed: &str, melds: &[Meld]) -> Unfinished {
    let list = tiles(concealed).expect("tiles");
    let mut hand = Unfinished { m: melds.len() as u8, ..Unfinished::default() };
    hand.melds[..melds.len()].copy_from_slice(melds);
    hand.concealed[..list.len()].copy_from_slice(&list);
    assert_eq!(read(&pack(&hand)), Ok(hand));
    hand
}

#[test]
fn waits_by_hand() {
    for (concealed, wanted) in [
        ("567m22456p67s234m", "58s"),
        ("1112345678999m", "123456789m"),
        ("19m19p19sESWNPFC", "19m19p19sESWNPFC"),
        ("19m19p19sESWNPFF", "C"),
        ("1133557799m22p4s", "4s"),
        ("1111m567m234p678p", ""),
        ("2233m44m55m66m77mE", "E"),
        ("123m456m789m123pE", "E"),
        ("1122334455667m", "147m"),
        ("258m258p258sESWN", ""),
    ] {
        let mut list = tiles(concealed).expect("tiles");
        list.sort();
        assert_eq!(text(&waits(&hand(&text(&list), &[]))), wanted, "{concealed}");
    }
    let kan = Meld { kind: CLOSED_KAN, tile: 22 };
    assert_eq!(waits(&hand("123m456m99p46s", &[kan])), []);
    assert_eq!(
        text(&waits(&hand("E", &[kan, Meld { kind: PON, tile: 0 }, Meld { kind: PON, tile: 1 }, Meld { kind: PON, tile: 2 }]))),
        "E"
    );
}

#[test]
fn furiten_and_refusals() {
    let bytes = pack(&hand("22456p67s", &[Meld { kind: PON, tile: 0 }, Meld { kind: PON, tile: 1 }]));
    let found = |discards: &[u8]| find(&bytes, discards);
    assert_eq!(found(&[]), Waits { refusal: 0, waits: vec![22, 25], furiten: false });
    assert!(found(&[0, 25, 33]).furiten && found(&[22]).furiten && !found(&[23, 24, 10]).furiten);
    assert_eq!(found(&[25, 34]), Waits { refusal: 15, ..Waits::default() });
    assert_eq!(find(&bytes[1..], &[34]).refusal, 1);
    assert_eq!((find(&[], &[]).refusal, find(&[0xa0; 6], &[]).refusal, find(&[0; 11], &[255]).refusal), (1, 1, 4));
    assert_eq!((0..5).map(length).collect::<Vec<_>>(), [11, 9, 8, 7, 6]);
}

#[test]
fn waits_are_the_kinds_with_a_reading() {
    let mut rng = Rng::new(1);
    for index in 0..3_000 {
        let whole = [themed, near, drawn][index % 3](&mut rng);
        let hand = Unfinished { m: whole.m, melds: whole.melds, concealed: whole.concealed };
        let has_reading = |kind: &u8| hand.times(*kind) < 4 && !readings(hand.concealed(), *kind).is_empty();
        let kinds: Vec<u8> = (0..34).filter(has_reading).collect();
        assert_eq!(waits(&hand), kinds, "{whole:?}");
    }
}
