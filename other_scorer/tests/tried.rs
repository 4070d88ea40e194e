//! How many readings were tried (02, S-4).

use other_scorer::codec::pack;
use other_scorer::notation::parse;
use other_scorer::rng::Rng;
use other_scorer::score::{best, has_yakuman, valued};
use other_scorer::vector::make;
use other_scorer::{read, score};

/// Of a hand: how many readings were tried, and how many it has, dealer 0, East.
fn tried(line: &str) -> (u32, usize) {
    let hand = parse(&line.split(' ').collect::<Vec<_>>()).expect("notation");
    assert_eq!(read(&pack(&hand)), Ok(hand));
    (score(&pack(&hand), 0, 0).tried, valued(&hand, 0, 0).len())
}

#[test]
fn all_where_there_is_no_yakuman() {
    assert_eq!(tried("234567m345p2267s+8s seat=1 ron=3"), (1, 1));
    assert_eq!(tried("112233m778899p5s+5s seat=1 ron=3"), (2, 2));
    // A place in each of three equal runs, and triplets with no yaku.
    assert_eq!(tried("11222333m456p99s+1m seat=1 ron=3"), (4, 4));
    assert_eq!(tried("1112222333444m+3m seat=1 ron=3"), (12, 12));
}

#[test]
fn up_to_the_first_yakuman() {
    assert_eq!(tried("19m19p19sESWNPFC+C seat=1 tsumo"), (1, 1));
    assert_eq!(tried("11222333m555p99s+1m seat=1 tsumo"), (4, 4));
    assert_eq!(tried("1122233344555m+4m seat=1 tsumo"), (7, 9));
    assert_eq!(tried("1112333444555m+2m seat=1 ron=3"), (2, 4));
    // The first turn is a yakuman in every reading.
    assert_eq!(tried("1112222333444m+3m seat=1 tsumo first"), (1, 12));
}

#[test]
fn none_where_the_hand_is_refused() {
    assert_eq!(tried("456p78s234s99p+9s chi=123m seat=1 ron=3"), (0, 1));
    assert_eq!(tried("1111m44m77m22p55p8p+8p seat=1 ron=3"), (0, 0));
}

#[test]
fn the_last_one_tried_is_the_first_yakuman_and_reported() {
    let mut rng = Rng::new(63);
    let mut stopped = 0;
    for index in 0..20_000 {
        let vector = make(&mut rng, index);
        let (scored, tried) = (vector.scored, vector.scored.tried as usize);
        let Ok(hand) = read(&vector.record) else { continue };
        if scored.refusal != 0 {
            assert_eq!(tried, 0);
            continue;
        }
        let all = valued(&hand, vector.dealer, vector.wind);
        let yakuman = |at: usize| all[at].1.is_some_and(|value| has_yakuman(value.yaku));
        match has_yakuman(scored.yaku) {
            true => assert!(yakuman(tried - 1) && best(&all) == Some(tried - 1)),
            false => assert_eq!(tried, all.len()),
        }
        assert!((0..tried - 1).all(|at| !yakuman(at)));
        stopped += (tried < all.len()) as usize;
    }
    assert!(stopped > 200, "{stopped}");
}
