//! How far from ready (02, S-14): by hand, and against every hand one swap away.

use other_scorer::deal::{drawn, near, themed};
use other_scorer::notation::tiles;
use other_scorer::ready::{find, is_such, lacking, swaps};
use other_scorer::record::{Meld, CHI, CLOSED_KAN, PON};
use other_scorer::rng::Rng;
use other_scorer::unfinished::{pack, read, Unfinished};
use other_scorer::waits::waits;

/// An unfinished hand from its tiles and melds.
fn hand(concealed: &str, melds: &[Meld]) -> Unfinished {
    let mut list = tiles(concealed).expect("tiles");
    list.sort();
    let mut hand = Unfinished { m: melds.len() as u8, ..Unfinished::default() };
    hand.melds[..melds.len()].copy_from_slice(melds);
    hand.concealed[..list.len()].copy_from_slice(&list);
    assert_eq!(read(&pack(&hand)), Ok(hand));
    hand
}

#[test]
fn by_hand() {
    for (concealed, wanted) in [
        ("1112345678999m", 0),
        ("19m19p19sESWNPFC", 0),
        ("1111m567m234p678p", 1),
        ("1111m44m77m22p55p8p", 2),
        ("147m258p369sESWN", 6),
        ("1122334455667m", 0),
        ("1133557799m22p4s", 0),
        ("1111333355557m", 1),
        ("159m159p159sESWN", 3),
    ] {
        assert_eq!(swaps(&hand(concealed, &[])), wanted, "{concealed}");
    }
    let pon = |tile| Meld { kind: PON, tile };
    assert_eq!(swaps(&hand("5m", &[pon(4), pon(0), pon(1), pon(2)])), 1);
    assert_eq!(swaps(&hand("6m", &[pon(4), pon(0), pon(1), pon(2)])), 0);
    assert_eq!(swaps(&hand("3sESW", &[pon(0), Meld { kind: CHI, tile: 9 }, Meld { kind: CLOSED_KAN, tile: 33 }])), 2);
}

#[test]
fn refusals() {
    assert_eq!((find(&[]), find(&[0xa0; 6]), find(&[0; 10]), find(&[255; 11])), (Err(1), Err(1), Err(1), Err(1)));
    assert_eq!(find(&[0; 11]), Err(4));
    let mut bytes = pack(&hand("1122334455667m", &[]));
    assert_eq!(find(&bytes), Ok(0));
    bytes[10] |= 1;
    assert_eq!(find(&bytes), Err(2));
}

/// Every hand one swap away, beside the same melds with no kind over four.
fn one_swap_away(hand: &Unfinished) -> Vec<Unfinished> {
    let count = hand.concealed().len();
    let swapped = |at: usize, kind: u8| {
        let mut other = *hand;
        other.concealed[at] = kind;
        other.concealed[..count].sort();
        (lacking(hand, &other) == 1 && read(&pack(&other)) == Ok(other)).then_some(other)
    };
    (0..count).flat_map(|at| (0..34).filter_map(move |kind| swapped(at, kind))).collect()
}

#[test]
fn a_swap_changes_the_number_by_one() {
    let mut rng = Rng::new(14);
    let mut seen = [0; 7];
    for index in 0..24 {
        let whole = [themed, near, drawn][index % 3](&mut rng);
        let hand = Unfinished { m: whole.m, melds: whole.melds, concealed: whole.concealed };
        let far = swaps(&hand);
        seen[far as usize] += 1;
        assert_eq!(far == 0, !waits(&hand).is_empty(), "{hand:?}");
        let others: Vec<u8> = one_swap_away(&hand).iter().map(swaps).collect();
        assert!(others.iter().all(|&other| other + 1 >= far), "{hand:?}");
        assert!(far == 0 || others.contains(&(far - 1)), "{hand:?}");
        assert_eq!(far == 0, is_such(&hand, hand.concealed, 0));
    }
    assert!(seen[..3].iter().all(|&times| times > 0), "{seen:?}");
}
