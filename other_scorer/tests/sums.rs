//! Properties of every score (01, Score).

use other_scorer::rng::Rng;
use other_scorer::vector::make;

#[test]
fn changes_sum_to_zero_and_refusals_are_all_zero() {
    let mut rng = Rng::new(5);
    for index in 0..8000 {
        let vector = make(&mut rng, index);
        let scored = vector.scored;
        assert_eq!(scored.changes.iter().sum::<i32>(), 0);
        if scored.refusal != 0 {
            assert_eq!((scored.h, scored.fu, scored.yaku, scored.changes), (0, 0, 0, [0; 4]));
        } else {
            assert!(scored.yaku != 0 && scored.yaku & !0x1F_FFFF_FFFE == 0);
            assert!(scored.changes.iter().all(|change| change % 100 == 0));
            assert_eq!(scored.h == 0, scored.yaku >> 26 != 0);
        }
    }
}

#[test]
fn same_seed_same_vectors() {
    let (mut one, mut two) = (Rng::new(9), Rng::new(9));
    for index in 0..500 {
        assert_eq!(make(&mut one, index).bytes(), make(&mut two, index).bytes());
    }
}
