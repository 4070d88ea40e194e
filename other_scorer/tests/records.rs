//! Reading and writing records (01, Tiles and the hand record).

use other_scorer::codec::pack;
use other_scorer::deal::{drawn, near, themed};
use other_scorer::record::*;
use other_scorer::rng::Rng;
use other_scorer::{read, write, Hand, Meld};

/// A sound hand with one open kan.
fn sample() -> Hand {
    let mut hand = Hand { how: RON, winner: 2, discarder: 1, winning: 8, m: 1, ..Hand::default() };
    hand.melds[0] = Meld { kind: OPEN_KAN, tile: 33 };
    hand.concealed[..10].copy_from_slice(&[1, 2, 3, 4, 5, 6, 7, 9, 10, 11]);
    hand
}

/// The refusal Write gives a changed sample.
fn refused(change: fn(&mut Hand)) -> u8 {
    let mut hand = sample();
    change(&mut hand);
    write(&hand, &mut [0; 13]).expect_err("a refusal")
}

#[test]
fn round_trips() {
    let mut rng = Rng::new(7);
    for turn in 0..30_000 {
        let hand = match turn % 3 {
            0 => themed(&mut rng),
            1 => near(&mut rng),
            _ => drawn(&mut rng),
        };
        let mut buffer = [0xAA; 16];
        let count = write(&hand, &mut buffer).expect("a sound hand");
        assert_eq!(count, [13, 12, 11, 10, 8][hand.m as usize]);
        assert!(buffer[count..].iter().all(|&byte| byte == 0xAA));
        assert_eq!(read(&buffer[..count]), Ok(hand));
        assert_eq!(write(&hand, &mut buffer[..count - 1]), Err(13));
        assert_eq!(read(&buffer[..count - 1]), Err(1));
        assert_eq!(read(&buffer[..count + 1]), Err(1));
    }
}

#[test]
fn bits_are_in_the_stated_order() {
    let mut hand = sample();
    hand.indicator = 0b010101;
    let record = pack(&hand);
    // 1 10 01 00 000 010101 001000 001, then the meld 10 100001 and the first concealed tile.
    let start = [0b1100_1000, 0b0001_0101, 0b0010_0000, 0b1101_0000, 0b1000_0010];
    assert_eq!(record[..5], start);
}

#[test]
fn write_refuses() {
    assert_eq!(write(&sample(), &mut [0; 12]), Ok(12));
    assert_eq!(refused(|hand| hand.how = 2), 2);
    assert_eq!(refused(|hand| hand.winner = 4), 2);
    assert_eq!(refused(|hand| hand.discarder = 4), 2);
    assert_eq!(refused(|hand| hand.discarder = 2), 2);
    assert_eq!(refused(|hand| hand.how = TSUMO), 2);
    assert_eq!(refused(|hand| hand.riichi = 3), 2);
    assert_eq!(refused(|hand| hand.situation = 5), 2);
    assert_eq!(refused(|hand| hand.indicator = 34), 2);
    assert_eq!(refused(|hand| hand.winning = 255), 2);
    assert_eq!(refused(|hand| hand.m = 5), 2);
    assert_eq!(refused(|hand| hand.m = 255), 2);
    assert_eq!(refused(|hand| hand.melds[0].kind = 4), 2);
    assert_eq!(refused(|hand| hand.melds[0].kind = CHI), 2);
    assert_eq!(refused(|hand| hand.melds[0].tile = 34), 2);
    assert_eq!(refused(|hand| hand.melds[1].tile = 1), 2);
    assert_eq!(refused(|hand| hand.melds[3].kind = 1), 2);
    assert_eq!(refused(|hand| hand.concealed[9] = 34), 2);
    assert_eq!(refused(|hand| hand.concealed[10] = 1), 2);
    assert_eq!(refused(|hand| hand.concealed[3] = 1), 3);
    assert_eq!(refused(|hand| hand.indicator = 33), 4);
    assert_eq!(refused(|hand| hand.winning = 33), 4);
    assert_eq!(refused(|hand| hand.riichi = 1), 5);
    assert_eq!(refused(|hand| hand.situation = RINSHAN), 5);
    assert_eq!(refused(|hand| hand.situation = FIRST_TURN), 5);
    assert_eq!(write(&Hand { situation: CHANKAN, ..sample() }, &mut [0; 12]), Ok(12));
    assert_eq!(refused(|hand| (hand.situation, hand.winning) = (CHANKAN, 7)), 5);
    assert_eq!(refused(|hand| (hand.situation, hand.indicator) = (CHANKAN, 8)), 5);
}

#[test]
fn read_refuses_any_damage_or_gives_a_sound_hand() {
    let mut rng = Rng::new(11);
    for _ in 0..50_000 {
        let record = other_scorer::damage::noise(&mut rng);
        match read(&record) {
            Ok(hand) => assert_eq!(pack(&hand), record),
            Err(number) => assert!((1..=5).contains(&number)),
        }
    }
}
