//! Each yaku on a hand written out (01, Yaku; Fu and points).

use other_scorer::codec::pack;
use other_scorer::notation::hand;
use other_scorer::record::*;
use other_scorer::{score, Hand, Scored};

/// Seat 1's ron from seat 3 on a hand, indicator 9s unless changed (dora 1s).
fn ron(concealed: &str, winning: &str, melds: &[(u8, &str)]) -> Hand {
    let hand = hand(concealed, winning, melds);
    Hand { how: RON, winner: 1, discarder: 3, indicator: 26, ..hand }
}

/// Seat 1's tsumo.
fn tsumo(concealed: &str, winning: &str, melds: &[(u8, &str)]) -> Hand {
    Hand { how: TSUMO, discarder: 0, ..ron(concealed, winning, melds) }
}

/// Scores with dealer 0 in the East round.
fn east(hand: Hand) -> Scored {
    score(&pack(&hand), 0, 0)
}

/// The refusal, h, fu and yaku numbers.
fn result(scored: Scored) -> (u8, u8, u8, Vec<u8>) {
    let numbers = (0..64).filter(|n| scored.yaku >> n & 1 == 1).collect();
    (scored.refusal, scored.h, scored.fu, numbers)
}

/// Asserts h, fu and yaku of an accepted hand.
fn is(hand: Hand, h: u8, fu: u8, yaku: &[u8]) {
    assert_eq!(result(east(hand)), (0, h, fu, yaku.to_vec()));
}

#[test]
fn value_triplets() {
    is(ron("234m 567p 11p 555z", "5z", &[(CHI, "3s")]), 1, 30, &[3]);
    // South is seat 1's own wind; West is nobody's here.
    is(ron("234m 567p 11p 222z", "4m", &[(CHI, "3s")]), 1, 30, &[3]);
    assert_eq!(east(ron("234m 567p 11p 333z", "4m", &[(CHI, "3s")])).refusal, 7);
    let both = Hand { winner: 0, discarder: 1, ..ron("234m 567p 11p 111z", "4m", &[(CHI, "3s")]) };
    is(both, 2, 30, &[3]);
    let round = ron("234m 567p 11p 111z", "4m", &[(CHI, "3s")]);
    is(round, 1, 30, &[3]);
    let south = score(&pack(&ron("234m 567p 11p 222z", "4m", &[(CHI, "3s")])), 0, 1);
    assert_eq!(result(south), (0, 2, 30, vec![3]));
}

#[test]
fn pinfu() {
    is(tsumo("234m 567m 345p 678s 33z", "8s", &[]), 2, 20, &[1, 4]);
    is(tsumo("234m 567m 345p 678s 33z", "7s", &[]), 1, 30, &[1]);
    is(tsumo("234m 567m 345p 678s 22z", "8s", &[]), 1, 30, &[1]);
    is(tsumo("123m 567m 345p 678s 33z", "3m", &[]), 1, 30, &[1]);
    is(tsumo("789m 567m 345p 678s 33z", "9m", &[]), 2, 20, &[1, 4]);
    is(tsumo("789m 567p 345p 678s 33z", "7m", &[]), 1, 30, &[1]);
}

#[test]
fn twin_runs() {
    is(ron("223344m 567p 678s 33z", "8s", &[]), 2, 30, &[4, 5]);
    is(ron("222333444m 67p 5p 33z", "6p", &[]), 2, 50, &[18]);
    is(ron("22334455m 667788p", "5m", &[]), 5, 30, &[2, 4, 21]);
    is(ron("22223333444455m", "4m", &[]), 11, 30, &[2, 4, 21, 25]);
    is(tsumo("223344m 567p 33z", "7p", &[(CLOSED_KAN, "1p")]), 2, 60, &[1, 5]);
}

#[test]
fn situations() {
    let plain = ron("234m 567m 345p 789s 33z", "7m", &[]);
    is(Hand { situation: CHANKAN, ..plain }, 2, 30, &[4, 6]);
    is(Hand { situation: LAST_TILE, ..plain }, 2, 30, &[4, 9]);
    is(Hand { riichi: 1, ..plain }, 2, 30, &[4, 10]);
    is(Hand { riichi: 2, ..plain }, 3, 30, &[4, 11]);
    let own = tsumo("234m 567m 345p 789s 33z", "7m", &[]);
    is(Hand { situation: LAST_TILE, ..own }, 3, 20, &[1, 4, 8]);
    is(Hand { situation: FIRST_TURN, ..own }, 0, 0, &[27]);
    is(Hand { situation: FIRST_TURN, winner: 0, ..own }, 0, 0, &[26]);
    let kan = tsumo("234m 567m 345p 33z", "7m", &[(OPEN_KAN, "1p")]);
    is(Hand { situation: RINSHAN, ..kan }, 1, 40, &[7]);
}

#[test]
fn seven_pairs() {
    is(ron("1133m 5577p 2299s 33z", "3z", &[]), 2, 25, &[12]);
    is(ron("2233m 5577p 2244s 88s", "2m", &[]), 3, 25, &[2, 12]);
    is(ron("1199m 1199p 99s 1133z", "3z", &[]), 4, 25, &[12, 20]);
    is(ron("113355779m 9m 1133z", "3z", &[]), 5, 25, &[12, 23]);
    is(ron("11224455778899m", "2m", &[]), 8, 25, &[12, 25]);
    is(ron("11223344556677z", "7z", &[]), 0, 0, &[32]);
}

#[test]
fn runs_across_and_along() {
    is(ron("234m 234p 234s 999m 33z", "4s", &[]), 2, 40, &[13]);
    is(ron("234p 234s 999m 33z", "4s", &[(CHI, "2m")]), 1, 30, &[13]);
    is(ron("123456789m 234p 33z", "4p", &[]), 3, 30, &[4, 14]);
    is(ron("456789m 234p 33z", "4p", &[(CHI, "1m")]), 1, 30, &[14]);
}

#[test]
fn yaochu() {
    is(ron("123m 789m 123p 99s 333z", "1p", &[]), 2, 40, &[15]);
    is(ron("789m 123p 99s 333z", "1p", &[(CHI, "1m")]), 1, 30, &[15]);
    is(ron("123m 789m 123p 999p 11m", "9m", &[]), 3, 40, &[22]);
    is(ron("789m 123p 999p 11m", "9m", &[(CHI, "1m")]), 2, 30, &[22]);
    is(ron("111m 999p 999s 333z 44z", "9p", &[]), 6, 60, &[17, 18, 20]);
}

#[test]
fn triplets() {
    is(ron("222m 222p 678s 33z", "2p", &[(PON, "2s")]), 2, 30, &[16]);
    is(ron("444m 222p 33z 999m", "2p", &[(PON, "7s")]), 2, 40, &[17]);
    is(ron("444m 222p 678s 99s 888p", "8s", &[]), 2, 50, &[18]);
    is(ron("444m 678s 99s 888p", "8s", &[(CLOSED_KAN, "2p")]), 2, 60, &[18]);
    let kans = [(OPEN_KAN, "2p"), (OPEN_KAN, "1m"), (CLOSED_KAN, "4z")];
    is(ron("678s 99s", "8s", &kans), 2, 80, &[19]);
    // The winning tile can complete the run, so that all three triplets stay concealed.
    is(ron("444m 222p 666s 678s 99s", "6s", &[]), 2, 50, &[18]);
}

#[test]
fn one_suit() {
    is(ron("123345m 999m 55m 333z", "1m", &[]), 3, 50, &[23]);
    is(ron("345m 999m 55m 333z", "3m", &[(CHI, "1m")]), 2, 40, &[23]);
    is(ron("123345m 999m 55m 678m", "1m", &[]), 6, 40, &[25]);
    is(ron("345m 999m 55m 678m", "3m", &[(CHI, "1m")]), 5, 30, &[25]);
}

#[test]
fn dragons_and_winds() {
    is(ron("555z 666z 77z 234m 567p", "4m", &[]), 4, 50, &[24]);
    // The own wind's triplet counts beside 24, the dragon triplets do not.
    is(ron("555z 666z 77z 222z 567p", "7p", &[]), 10, 60, &[3, 18, 23, 24]);
    is(ron("555z 666z 777z 234m 11p", "4m", &[]), 0, 0, &[28]);
    is(ron("666z 777z 234m 11p", "4m", &[(PON, "5z")]), 0, 0, &[28]);
    is(ron("111z 222z 44z 234m", "4m", &[(PON, "3z")]), 0, 0, &[29]);
    is(ron("111z 222z 444z 11m", "4z", &[(PON, "3z")]), 0, 0, &[29]);
}

#[test]
fn yakuman() {
    is(tsumo("444m 222p 666s 888s 99s", "6s", &[]), 0, 0, &[30]);
    is(ron("444m 222p 666s 888s 99s", "9s", &[]), 0, 0, &[30]);
    is(tsumo("444m 222p 888s 99s", "2p", &[(CLOSED_KAN, "1m")]), 0, 0, &[30]);
    let kans = [(OPEN_KAN, "2p"), (OPEN_KAN, "1m"), (CLOSED_KAN, "4z"), (CLOSED_KAN, "1z")];
    is(ron("99s", "9s", &kans), 0, 0, &[31]);
    is(ron("111z 222z 555z 66z", "5z", &[(PON, "3z")]), 0, 0, &[32]);
    is(ron("111m 999m 111p 99p", "1p", &[(PON, "9s")]), 0, 0, &[33]);
    is(ron("234s 234s 666s 88s", "2s", &[(PON, "6z")]), 0, 0, &[34]);
    is(ron("234234s 666s 44s", "2s", &[(PON, "8s")]), 0, 0, &[34]);
    is(ron("11123455678999m", "5m", &[]), 0, 0, &[35]);
    is(ron("11112345678999m", "5m", &[]), 0, 0, &[35]);
    let orphans = ron("19m 19p 19s 12345677z", "1m", &[]);
    is(Hand { situation: CHANKAN, indicator: 1, ..orphans }, 0, 0, &[36]);
}

#[test]
fn yakuman_ties_go_to_the_first_reading() {
    let runs = tsumo("111222333m 444p 55s", "4p", &[]);
    is(Hand { situation: FIRST_TURN, ..runs }, 0, 0, &[27]);
    is(runs, 0, 0, &[30]);
    is(tsumo("222333444s 666s 88s", "6s", &[]), 0, 0, &[34]);
}

#[test]
fn plain_ties_go_to_the_first_reading() {
    // Pair 1m with 444m open gives 16; pair 4m with 111m concealed gives 18.
    let tie = ron("11123444m 444p", "4m", &[(CLOSED_KAN, "4s")]);
    let (refusal, h, _, yaku) = result(east(Hand { indicator: 30, ..tie }));
    assert_eq!((refusal, h), (0, 2));
    assert_eq!(yaku, vec![16]);
}

#[test]
fn dora_is_counted_and_is_no_yaku() {
    let hand = ron("234m 567m 345p 789s 33z", "7m", &[]);
    is(Hand { indicator: 28, ..hand }, 3, 30, &[4]);
    let kan = ron("234m 567m 345p 33z", "7m", &[(OPEN_KAN, "1z")]);
    is(Hand { indicator: 30, ..kan }, 5, 40, &[3]);
    let bare = ron("567m 345p 789s 33z", "7m", &[(CHI, "2m")]);
    assert_eq!(result(east(Hand { indicator: 28, ..bare })), (7, 0, 0, vec![]));
}

#[test]
fn refusal_8_comes_first() {
    let record = pack(&ron("567m 345p 789s 33z", "7m", &[(CHI, "2m")]));
    assert_eq!(score(&record, 4, 0), Scored { refusal: 8, ..Scored::default() });
    assert_eq!(score(&[], 0, 2), Scored { refusal: 8, ..Scored::default() });
    assert_eq!(score(&[], 3, 1), Scored { refusal: 1, ..Scored::default() });
}
