//! The six messages on worked examples, their refusals, and buffers of every length.

use other_scorer::codec::pack;
use other_scorer::notation::{parse, unfinished};
use other_scorer::say::calls::{fu, put, ready, refusal, score, scores, waits, Message};
use other_scorer::unfinished::pack as pack_unfinished;
use other_scorer::{score as score_of, Position};

/// The record of a hand.
fn record(line: &str) -> Vec<u8> {
    pack(&parse(&line.split(' ').collect::<Vec<_>>()).expect("notation"))
}

/// The Score message and the Fu message of a hand.
fn said(language: u8, line: &str, dealer: u8, wind: u8) -> (Message, Message) {
    let record = record(line);
    let scored = score_of(&record, dealer, wind);
    (score(language, &record, dealer, &scored), fu(language, &scored))
}

/// The bytes of an unfinished hand.
fn bytes(line: &str) -> Vec<u8> {
    pack_unfinished(&unfinished::parse(&line.split(' ').collect::<Vec<_>>()).expect("notation"))
}

#[test]
fn score_and_fu_of_a_hand() {
    // South wins by ron, tanyao, pinfu, 2 han 30 fu; North pays 2,000, South gets 2,000.
    let line = "234567m345p2267s+8s seat=1 ron=3";
    for (language, two_thousand) in [(1, vec![29]), (2, vec![2, 51]), (3, vec![29]), (4, vec![29])] {
        let clips = [&[61, 64, 142, 144, 2, 69, 12, 70, 63, 66], &two_thousand[..], &[68, 61, 67], &two_thousand, &[68]].concat();
        let items = vec![84, 11, 85, 10, 94, 12, 70];
        assert_eq!(said(language, line, 0, 0), (Ok(clips), Ok(items)));
    }
}

#[test]
fn a_yakuman_by_tsumo() {
    // South wins by tsumo, suuankou; East pays 16,000, West and North 8,000 each, South gets 32,000.
    let line = "111m333p5557799s+7s seat=1 tsumo";
    let clips = [
        vec![61, 65, 170, 75, 60, 66, 1, 37, 33, 68, 62, 66, 35, 68, 63, 66, 35, 68, 61, 67, 3, 37, 29, 68],
        vec![61, 65, 170, 75, 60, 66, 47, 51, 68, 62, 66, 8, 51, 68, 63, 66, 8, 51, 68, 61, 67, 12, 2, 51, 68],
        vec![61, 65, 170, 75, 60, 66, 37, 33, 68, 62, 66, 35, 68, 63, 66, 35, 68, 61, 67, 3, 37, 29, 68],
        vec![61, 65, 170, 75, 60, 66, 1, 37, 33, 68, 62, 66, 35, 68, 63, 66, 35, 68, 61, 67, 3, 37, 29, 68],
    ];
    for (language, clips) in (1..).zip(clips) {
        assert_eq!(said(language, line, 0, 0), (Ok(clips), Ok(vec![75])));
    }
}

#[test]
fn limits_and_other_dealers() {
    // Haneman with the dealer paying: seat 3 is West for dealer 1, seat 1 East.
    let line = "666m3334566p666s+6p seat=3 ron=1 riichi indicator=2p";
    let clips = vec![62, 64, 142, 150, 158, 7, 69, 14, 70, 72, 60, 66, 43, 51, 68, 62, 67, 43, 51, 68];
    let items = vec![84, 11, 85, 10, 88, 4, 89, 4, 90, 4, 91, 2, 93, 6, 94, 14, 70];
    assert_eq!(said(2, line, 1, 1), (Ok(clips), Ok(items)));
    // 4 han 50 fu is over 2,000 and so mangan; a dealer wins by tsumo, and each other seat pays.
    let plain = |line: &str| said(1, line, 0, 0).0.expect("a message");
    let four = plain("111m333p555s77s99s+7s seat=1 ron=3");
    assert!(four.windows(2).any(|two| two == [70, 71]), "{four:?}");
    let dealer = plain("234567m345p2267s+8s seat=0 tsumo");
    assert_eq!(
        dealer,
        [60, 65, 141, 142, 144, 3, 69, 11, 70, 61, 66, 28, 21, 68, 62, 66, 28, 21, 68, 63, 66, 28, 21, 68, 60, 67, 30, 27, 68]
    );
}

#[test]
fn scores_of_a_game() {
    let fresh = Position::fresh();
    assert_eq!(scores(1, &fresh), Ok([60, 61, 62, 63].map(|player| [player, 3, 37, 68]).concat()));
    let position = Position { scores: [-500, 41_000, 0, i32::MIN], sticks: 1, counter: 12, dealer: 7, ..fresh };
    let mandarin =
        vec![61, 76, 23, 68, 62, 4, 37, 28, 68, 63, 0, 68, 60, 76, 11, 1, 38, 31, 25, 13, 8, 37, 30, 24, 13, 8, 68, 77, 1, 78, 10, 2];
    assert_eq!(scores(4, &position), Ok(mandarin));
    let english =
        vec![61, 76, 23, 68, 62, 13, 1, 51, 68, 63, 0, 68, 60, 76, 2, 53, 19, 13, 7, 52, 22, 17, 3, 51, 24, 13, 8, 68, 77, 1, 78, 43];
    assert_eq!(scores(2, &position), Ok(english));
    assert_eq!(scores(3, &Position { dealer: 255, ..position }), scores(3, &Position { dealer: 3, ..position }));
}

#[test]
fn waits_and_ready() {
    let hand = bytes("567m22456p67s chi=234m");
    assert_eq!(waits(1, &hand, &[30, 25, 3]), Ok(vec![79, 122, 125, 81]));
    assert_eq!(waits(2, &hand, &[]), Ok(vec![79, 122, 125]));
    assert_eq!(waits(3, &bytes("123456m99p46s ankan=5555s"), &[22]), Ok(vec![80]));
    assert_eq!(ready(4, &hand), Ok(vec![82]));
    assert_eq!(ready(4, &bytes("1111m44m77m22p55p8p")), Ok(vec![2, 83]));
}

#[test]
fn refusals_in_order() {
    let (sound, hand) = (record("234567m345p2267s+8s seat=1 ron=3"), bytes("567m22456p67s chi=234m"));
    for language in [0, 5, 255] {
        assert_eq!(score(language, &[], 9, &score_of(&[], 9, 0)), Err(8));
        assert_eq!(fu(language, &score_of(&[], 0, 0)), Err(8));
        assert_eq!(scores(language, &Position::fresh()), Err(8));
        assert_eq!((refusal(language, 0), waits(language, &[], &[]), ready(language, &[])), (Err(8), Err(8), Err(8)));
    }
    for (record, dealer, wind, wanted) in [(&sound[..], 4, 0, 8), (&sound, 0, 2, 8), (&sound[..12], 0, 0, 1)] {
        let scored = score_of(record, dealer, wind);
        assert_eq!((score(1, record, dealer, &scored), fu(1, &scored)), (Err(wanted), Err(wanted)));
    }
    let no_yaku = "456p78s234s99p+9s chi=123m seat=1 ron=3";
    assert_eq!(said(4, no_yaku, 0, 0), (Err(7), Err(7)));
    assert_eq!((waits(1, &hand[1..], &[34]), waits(1, &hand, &[34]), ready(1, &[0; 11])), (Err(1), Err(15), Err(4)));
    for number in 0..=255 {
        assert_eq!(refusal(2, number), if number > 22 { Err(8) } else { Ok(vec![200 + number]) });
    }
}

#[test]
fn buffers_of_every_length() {
    let message = said(2, "111m333p5557799s+7s seat=1 tsumo", 0, 0).0;
    let clips = message.clone().expect("a message");
    for length in 0..40 {
        let mut buffer = vec![0xa5; length];
        let wanted = if length < clips.len() { (13, 0) } else { (0, clips.len() as u16) };
        assert_eq!(put(&message, &mut buffer), wanted);
        let written = &clips[..wanted.1 as usize];
        assert_eq!(buffer, [written, &vec![0xa5; length - written.len()]].concat());
        assert_eq!((put(&Err(7), &mut buffer), &buffer[written.len()..]), ((7, 0), &vec![0xa5; length - written.len()][..]));
    }
}
