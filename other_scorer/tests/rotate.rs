//! Rotating the table and renaming the suits (02, S-12), by this scorer alone.

use other_scorer::codec::{pack, read};
use other_scorer::notation::{parse, print};
use other_scorer::record::Hand;
use other_scorer::rng::Rng;
use other_scorer::rotate::{is_green, moved, moved_changes, renamed, rotated, RENAMINGS};
use other_scorer::vector::make;
use other_scorer::{score, Scored};

/// A hand by notation.
fn hand(line: &str) -> Hand {
    parse(&line.split(' ').collect::<Vec<_>>()).expect("notation")
}

/// The notation of a hand with indicator North, which is left out.
fn text(hand: &Hand) -> String {
    print(hand).expect("a sound hand").replace(" indicator=N", "")
}

#[test]
fn hands_rotated_and_renamed() {
    let ron = hand("234567m345p2267s+8s seat=1 ron=3");
    assert_eq!(text(&rotated(&ron, 1)), "234567m345p2267s+8s seat=2 ron=0");
    assert_eq!(text(&rotated(&ron, 2)), "234567m345p2267s+8s seat=3 ron=1");
    assert_eq!(text(&rotated(&ron, 7)), "234567m345p2267s+8s seat=0 ron=2");
    let tsumo = hand("234567m345p2267s+8s seat=3 tsumo");
    assert_eq!(text(&rotated(&tsumo, 3)), "234567m345p2267s+8s seat=2 tsumo");
    assert_eq!(moved_changes([-6000, 12_000, -3000, -3001], 1), [-3001, -6000, 12_000, -3000]);
    assert_eq!(text(&renamed(&ron, [1, 2, 0])), "2267m234567p345s+8m seat=1 ron=3");
    let melds = hand("46mPP+5m kan=9999s kan=2222p ankan=EEEE seat=1 tsumo");
    assert_eq!(text(&renamed(&melds, [2, 0, 1])), "46sPP+5s kan=9999p kan=2222m ankan=EEEE seat=1 tsumo");
    let indicator = hand("234567m345p2267s+8s seat=1 ron=3 indicator=9m");
    assert!(print(&renamed(&indicator, [1, 0, 2])).expect("a hand").ends_with(" indicator=9p"));
}

#[test]
fn an_all_green_hand_may_lose_by_a_renaming() {
    let green = hand("22334466688sFF+F seat=1 ron=3");
    let plain = renamed(&green, [2, 1, 0]);
    assert!(is_green(&green) && !is_green(&plain));
    let gain = |hand: &Hand| score(&pack(hand), 0, 0).changes[1];
    assert!(gain(&green) > gain(&plain) && gain(&plain) > 0);
}

/// The items with those of the reading's groups in order: a renaming may order the groups anew.
fn kept(scored: Scored, hand: &Hand) -> Scored {
    let mut kept = scored;
    kept.items.groups[..4 - hand.m as usize].sort();
    kept
}

#[test]
fn scores_rotated_and_renamed() {
    let mut rng = Rng::new(64);
    let mut compared = 0;
    for index in 0..20_000 {
        let vector = make(&mut rng, index);
        let (dealer, wind, scored) = (vector.dealer, vector.wind, vector.scored);
        let Ok(hand) = read(&vector.record) else { continue };
        if dealer > 3 {
            continue;
        }
        let by = rng.within(0, 4);
        let other = rotated(&hand, by);
        assert_eq!(read(&pack(&other)), Ok(other));
        let wanted = Scored { changes: moved_changes(scored.changes, by), ..scored };
        assert_eq!(score(&pack(&other), moved(dealer, by), wind), wanted);
        assert_eq!(rotated(&other, 4 - by), hand);

        let suits = rng.pick(&RENAMINGS);
        let other = renamed(&hand, suits);
        assert_eq!(read(&pack(&other)), Ok(other));
        if !is_green(&hand) && !is_green(&other) {
            assert_eq!(kept(score(&pack(&other), dealer, wind), &other), kept(scored, &hand));
            compared += 1;
        }
        let back = RENAMINGS.iter().find(|back| (0..3).all(|suit| back[suits[suit] as usize] == suit as u8));
        assert_eq!(renamed(&other, *back.expect("a renaming")), hand);
    }
    assert!(compared > 10_000, "{compared}");
}
