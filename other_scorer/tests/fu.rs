//! The items of fu, of the reported reading (01, Fu and points; 02, S-3).

use other_scorer::codec::{pack, read};
use other_scorer::deal::themed;
use other_scorer::fu::Items;
use other_scorer::notation::parse;
use other_scorer::rng::Rng;
use other_scorer::score;
use other_scorer::score::valued;
use other_scorer::vector::make;

/// The items of a hand's score, dealer 0, East.
fn items(line: &str) -> Items {
    let hand = parse(&line.split(' ').collect::<Vec<_>>()).expect("notation");
    assert_eq!(read(&pack(&hand)), Ok(hand));
    let scored = score(&pack(&hand), 0, 0);
    assert_eq!((scored.refusal, scored.items.total()), (0, scored.fu));
    scored.items
}

#[test]
fn items_by_hand() {
    let none = Items::default();
    let closed = Items { base: 20, closed_ron: 10, ..none };
    assert_eq!(items("234567m345p2267s+8s seat=1 ron=3"), closed);
    assert_eq!(items("234567m345p2267s+8s seat=1 tsumo"), Items { base: 20, ..none });
    let triplets = Items { groups: [8, 4, 4, 2], rounding: 2, ..closed };
    assert_eq!(items("111m333p555s77s99s+7s seat=1 ron=3"), triplets);
    let open_20 = Items { base: 20, rounding: 10, ..none };
    assert_eq!(items("567m456p67s22p+8s chi=234m seat=1 ron=3"), open_20);
    assert_eq!(items("1122m3344p5566sE+E seat=1 ron=3"), Items { base: 25, ..none });
    assert_eq!(items("1122m3344p5566sE+E seat=1 tsumo"), Items { base: 25, ..none });
    assert_eq!(items("111m333p555s77s99s+7s seat=1 tsumo"), none);
    assert_eq!(items("19m19p19sESWNPFC+C seat=1 tsumo"), none);
}

#[test]
fn groups_of_the_reading_come_first_then_melds_as_recorded() {
    let none = Items::default();
    let kans = Items { base: 20, pair: 2, groups: [0, 16, 8, 32], wait: 2, tsumo: 2, rounding: 8, ..none };
    assert_eq!(items("46mPP+5m kan=9999s kan=2222p ankan=EEEE seat=1 tsumo"), kans);
    let one = Items { base: 20, groups: [0, 4, 0, 4], rounding: 2, ..none };
    assert_eq!(items("99p45888s+3s chi=123m pon=EEE seat=1 ron=3"), one);
    assert_eq!(items("99p45888s+3s pon=EEE chi=123m seat=1 ron=3"), Items { groups: [0, 4, 4, 0], ..one });
}

#[test]
fn items_add_up_to_the_fu() {
    let mut rng = Rng::new(61);
    for _ in 0..20_000 {
        for (_, value) in valued(&themed(&mut rng), 0, 0) {
            let Some(value) = value else { continue };
            assert_eq!(value.items.total(), value.fu);
            assert!(value.fu % 10 == 0 || value.items == Items { base: 25, ..Items::default() });
        }
    }
}

#[test]
fn a_refused_score_and_a_yakuman_have_zeros() {
    let mut rng = Rng::new(62);
    for index in 0..20_000 {
        let scored = make(&mut rng, index).scored;
        if scored.refusal != 0 || scored.yaku >> 26 != 0 {
            assert_eq!((scored.items, scored.fu), (Items::default(), 0));
        }
    }
}
