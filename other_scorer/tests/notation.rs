//! Hand notation: round trips, document 01's table, bad words.

use other_scorer::codec::{pack, read};
use other_scorer::deal::{drawn, near, themed};
use other_scorer::fault;
use other_scorer::notation::hex::{from_hex, to_hex};
use other_scorer::notation::{doubtful, parse, print, seat, text, tiles, unfinished, Fault};
use other_scorer::rng::Rng;
use other_scorer::{score, Hand, Scored};

/// A hand from one line of notation.
fn hand(line: &str) -> Result<Hand, Fault> {
    parse(&line.split_whitespace().collect::<Vec<_>>())
}

/// The score of a line with dealer 0, East (01, Table of hands).
fn line(line: &str) -> Scored {
    score(&pack(&hand(line).expect("notation")), 0, 0)
}

#[test]
fn round_trips_of_sound_hands() {
    let mut rng = Rng::new(51);
    for turn in 0..30_000 {
        let sound = match turn % 3 {
            0 => themed(&mut rng),
            1 => near(&mut rng),
            _ => drawn(&mut rng),
        };
        let text = print(&sound).expect("notation");
        assert_eq!(hand(&text), Ok(sound), "{text}");
        let mut words: Vec<&str> = text.split(' ').collect();
        words.sort_by_key(|word| ["chi=", "pon=", "kan=", "ankan="].iter().any(|meld| word.starts_with(meld)));
        assert_eq!(parse(&words), Ok(sound), "{text}");
        let record = pack(&sound);
        assert_eq!(from_hex(&to_hex(&record)), Ok(record));
    }
}

#[test]
fn round_trips_of_hands_refused_with_4_or_5() {
    let mut rng = Rng::new(52);
    for turn in 0..3000 {
        let record = fault::record(&mut rng, 12 + turn % 13);
        assert!(matches!(read(&record), Err(4 | 5)));
        let (refused, _) = other_scorer::codec::unpack(&record).expect("fields");
        assert_eq!(print(&refused).map(|text| hand(&text)), Some(Ok(refused)));
    }
}

#[test]
fn tiles_come_in_any_order() {
    let sorted = hand("234567m345p2267s+8s seat=1 ron=3");
    assert!(sorted.is_ok());
    for line in
        ["234567m345p67s22s+8s seat=1 ron=3", "7s354p2s6s2s765432m+8s ron=3 seat=1 indicator=4z", "234567m 345p 67s 22s +8s seat=1 ron=3"]
    {
        assert_eq!(hand(line), sorted);
    }
    let open = hand("567m456p67s22p+8s chi=423m seat=1 ron=3");
    assert_eq!(open, hand("567m456p67s22p+8s chi=234m seat=1 ron=3"));
}

#[test]
fn tiles_in_other_signs() {
    let orphans = tiles("19m19p19sESWNPFC").expect("tiles");
    for text in [
        "19m19p19s1234567z",
        "19m19p19seSwnPfc",
        "１９ｍ１９ｐ１９ｓ１２３４５６７ｚ",
        "19m19p19s東南西北白發中",
        "19m19p19s東南西北白発中",
        "🀇🀏🀙🀡🀐🀘🀀🀁🀂🀃🀆🀅🀄",
        "🀇🀏🀙🀡🀐🀘🀀🀁🀂🀃🀆🀅🀄\u{fe0f}",
    ] {
        assert_eq!(tiles(text), Ok(orphans.clone()), "{text}");
    }
    for text in ["19m,19p,19s,ESWN,PFC", "1m,9m,19p,19s、E,S,W,N,p,F，C,"] {
        assert_eq!(tiles(text), Ok(orphans.clone()), "{text}");
    }
    assert_eq!(tiles("eesswwnnppffcc"), tiles("EESSWWNNPPFFCC"));
    assert_eq!(tiles("pps"), tiles("PPS"));
    assert_eq!(tiles("11pEp"), tiles("11pEP"));
    let all: String = (0x1f000..0x1f022).filter_map(char::from_u32).collect();
    let mut kinds = tiles(&all).expect("tiles");
    kinds.sort();
    assert_eq!(kinds, (0..34).collect::<Vec<u8>>());
    let plain = hand("234567m345p2267s+8s seat=1 ron=3 riichi");
    assert!(plain.is_ok());
    for line in [
        "２３４５６７ｍ３４５ｐ２２６７ｓ＋８ｓ seat＝１ ron＝３ riichi",
        "234567m345p2267s+8s seat=S ron=n RIICHI indicator=北",
        "🀈🀉🀊🀋🀌🀍🀛🀜🀝🀑🀑🀕🀖+🀗 seat=南 ron=N riichi indicator=n",
    ] {
        assert_eq!(hand(line), plain, "{line}");
    }
}

#[test]
fn seats_by_number_and_wind() {
    for (number, names) in [
        ["0", "E", "e", "東", "1z", "East"],
        ["1", "S", "s", "南", "2z", "south"],
        ["2", "W", "w", "西", "🀂", "WEST"],
        ["3", "N", "n", "北", "４ｚ", "North"],
    ]
    .iter()
    .enumerate()
    {
        for name in names {
            assert_eq!(seat(name), Ok(number as u8), "{name}");
        }
    }
    for name in ["4", "P", "", "ES", "1m", "Nord", "-1", "256"] {
        assert!(seat(name).is_err(), "{name}");
    }
}

#[test]
fn unfinished_hands() {
    let of = |line: &str| unfinished::parse(&line.split_whitespace().collect::<Vec<_>>());
    let hand = of("567m22456p67s chi=234m");
    assert_eq!(hand.as_ref().ok().and_then(unfinished::print).as_deref(), Some("567m22456p67s chi=234m"));
    for line in ["567m22456p67s+8s chi=234m", "567m 22456p 67s + 8s chi=234m", "67s,22456p,567m+ chi=234m"] {
        assert_eq!(of(line), hand, "{line}");
    }
    for (line, word, why) in [
        ("567m22456p678s chi=234m", 2, "11 tiles, with 1 meld 10 are needed; a finished hand waits for nothing"),
        ("567m22456p6789s chi=234m", 2, "12 tiles, with 1 meld 10 are needed"),
        ("567m22456p6s+8s chi=234m", 2, "9 tiles before +, with 1 meld 10 are needed"),
        ("567m22456p67s+8s+8s chi=234m", 0, "sign 3 of"),
        ("567m22456p67s+8s 9s chi=234m", 1, "the winning tile is the last one"),
        ("567m22456p67s chi=234m tsumo", 2, "an unfinished hand is its tiles and melds"),
        ("567m22456p67s chi=234m Seat=1", 2, "an unfinished hand is its tiles and melds"),
        ("567m22456p67s chi=234m reach", 2, "the word is riichi"),
        ("567m22456p67s chi=234m menzen", 2, "neither tiles nor a meld"),
    ] {
        let fault = of(line).expect_err(line);
        assert!(fault.word == word && fault.why.starts_with(why), "{line}: {fault:?}");
        assert!(fault.why.contains("finished hand waits") == line.contains("678s "), "{line}: {fault:?}");
    }
}

#[test]
fn digits_that_look_like_two_suits() {
    let of = |text| doubtful(text).map(|(stretch, first)| format!("{stretch} {first}"));
    assert_eq!(of("234567345p67s22s"), Some("234567345p 234567".into()));
    assert_eq!(of("234m6722s"), Some("6722s 67".into()));
    assert_eq!(of("112233m7788995s"), Some("7788995s 778899".into()));
    assert_eq!(of("6782s"), Some("6782s 678".into()));
    assert_eq!(of("765432m"), Some("765432m 7".into()));
    for text in ["234567m345p67s22s", "55p", "1122334455667m", "ESWN", "", "123", "321"] {
        assert_eq!(of(text), None, "{text}");
    }
}

#[test]
fn table_of_hands() {
    let ron = line("234567m345p67s22s+8s seat=1 ron=3");
    assert_eq!((ron.refusal, ron.changes), (0, [0, 2000, 0, -2000]));
    let tsumo = line("234567m345p67s22s+8s seat=1 tsumo");
    assert_eq!((tsumo.refusal, tsumo.changes), (0, [-1300, 2700, -700, -700]));
    let dealer = line("234567m345p67s22s+8s seat=0 ron=3");
    assert_eq!((dealer.refusal, dealer.changes), (0, [2900, 0, 0, -2900]));
    let four = line("111222333m78s99p+9s seat=1 tsumo");
    assert_eq!((four.h, four.changes), (6, [-6000, 12_000, -3000, -3000]));
    let five = line("112233m778899p5s+5s seat=1 ron=3");
    assert_eq!((five.h, five.fu, five.changes), (3, 40, [0, 5200, 0, -5200]));
    let six = line("567m456p67s22p+8s chi=234m seat=1 ron=3");
    assert_eq!((six.refusal, six.changes), (0, [0, 1000, 0, -1000]));
    let seven = line("456p78s234s99p+9s chi=123m seat=1 ron=3");
    assert_eq!(seven.refusal, 7);
    let eight = line("111m333p555s77s99s+7s seat=1 ron=3");
    assert_eq!((eight.h, eight.fu, eight.changes), (4, 50, [0, 8000, 0, -8000]));
    let nine = line("111m333p555s77s99s+7s seat=1 tsumo");
    assert_eq!(nine.changes, [-16_000, 32_000, -8000, -8000]);
    let twelve = line("1111m44m77m22p55p8p+8p seat=1 ron=3");
    assert_eq!(twelve.refusal, 6);
}

#[test]
fn all_words() {
    let full = "7s+7s chi=123m pon=555p kan=EEEE ankan=2222s seat=2 tsumo rinshan indicator=F";
    assert_eq!(print(&hand(full).expect("notation")).as_deref(), Some(full));
    for words in ["riichi", "double", "riichi last", "first", "chankan", "last"] {
        let line = format!("234567m345p2267s+8s seat=3 tsumo {words} indicator=9m");
        assert_eq!(print(&hand(&line).expect("notation")), Some(line));
    }
    let orphans = tiles("19m19p19s1234567z").expect("tiles");
    assert_eq!((text(&orphans).as_str(), tiles("19m19p19sESWNPFC")), ("19m19p19sESWNPFC", Ok(orphans)));
}

#[test]
fn notation_leaves_to_read_what_a_record_can_hold() {
    let same = hand("234567m345p2267s+8s seat=1 ron=1").expect("notation");
    assert_eq!(read(&pack(&same)), Err(2));
    assert_eq!(print(&same).map(|text| hand(&text)), Some(Ok(same)));
    let mut descending = same;
    descending.concealed.swap(0, 1);
    assert_eq!(print(&descending), None);
    assert_eq!(print(&Hand { riichi: 3, ..same }), None);
}

#[test]
fn bad_notation() {
    let good = "234567m345p2267s+8s seat=1 ron=3";
    for (from, to, word, why) in [
        ("+8s", "", 3, "no winning tile: put +"),
        ("+8s", "+88s", 0, "one tile is needed, 2 given"),
        ("+8s", "+8", 0, "the last digits of \"8\" have no suit"),
        ("+8s", "+", 0, "no winning tile after +"),
        ("+8s", "+8s+8s", 0, "sign 3 of \"8s+8s\", +"),
        ("+8s", "+8s 5m", 1, "the winning tile is the last one"),
        ("+8s", "+8s +5m", 1, "a second +"),
        ("345p", "34p", 0, "12 tiles before +, with 0 melds 13 are needed"),
        ("345p", "3456p", 0, "14 tiles before +"),
        ("345p", "345x", 0, "sign 11 of \"234567m345x2267s\", x"),
        ("345p", "305p", 0, "sign 9 of \"234567m305p2267s\", 0: there are no red fives here, write 5"),
        ("345p", "345pp", 0, "sign 12 of \"234567m345pp2267s\", p: no digit before it"),
        ("345p", "345P", 0, "sign 11 of \"234567m345P2267s\", P: the digits before it have no suit"),
        ("345p", "348z", 0, "8z is no tile"),
        ("345p", "34,5p", 0, "sign 10 of \"234567m34,5p2267s\", ,: the digits before it have no suit"),
        ("345p", "345Z", 0, "sign 11 of \"234567m345Z2267s\", Z: a suit is a small letter"),
        ("seat=1 ", "", 2, "the winner is missing"),
        ("seat=1", "seat", 1, "the number is missing"),
        ("seat=1", "seat=4", 1, "a seat is 0, 1, 2 or 3"),
        ("seat=1", "seat=", 1, "a seat is 0, 1, 2 or 3"),
        ("seat=1", "seat=1 seat=1", 2, "an earlier word has said this already"),
        (" ron=3", "", 2, "tsumo or ron=, such as ron=3, is missing"),
        ("ron=3", "ron", 2, "whose discard is missing"),
        ("ron=3", "ron=4", 2, "a seat is"),
        ("ron=3", "ron=3 tsumo", 3, "an earlier word"),
        ("ron=3", "ron=3 riichi double", 4, "an earlier word"),
        ("ron=3", "ron=3 last first", 4, "an earlier word has said this already: one of rinshan, chankan, last and first fits"),
        ("ron=3", "ron=3 indicator=44z", 3, "one tile is needed"),
        ("ron=3", "ron=3 indicator=4z indicator=4z", 4, "an earlier word"),
        ("ron=3", "ron=3 dora=4z", 3, "the tile turned up is indicator="),
        ("ron=3", "ron=3 ura=4z", 3, "there is no ura-dora in these rules"),
        ("ron=3", "ron=3 foo=4z", 3, "foo= is no option"),
        ("ron=3", "ron=3 ippatsu", 3, "there is no ippatsu in these rules, leave the word out"),
        ("ron=3", "ron=3 Reach", 3, "the word is riichi"),
        ("ron=3", "ron=3 menzen", 3, "neither tiles nor one of the words tsumo, riichi, double"),
        ("ron=3", "ron=3 riichi=1", 3, "riichi stands alone"),
        ("ron=3", "ron3", 2, "= is missing, write ron=3"),
        ("ron=3", "Ron:N", 2, "= is missing, write ron=N"),
        ("ron=3", "ron=3 indicatorE", 3, "= is missing, write indicator=E"),
        ("ron=3", "ron=3 ronin", 3, "neither tiles nor one of the words tsumo"),
        ("ron=3", "from=3", 2, "the word is ron"),
        ("345p", " pong=333p ", 1, "the word is pon, such as pon=222m"),
        ("345p", " chi=345p", 1, "sign 10 of \"345p2267s+8s\", +"),
        ("345p", " chi=891m ", 1, "three neighbours"),
        ("345p", " chi=123z ", 1, "three neighbours"),
        ("345p", " chi=135p ", 1, "three neighbours"),
        ("345p", " chi=3456p ", 1, "three neighbours"),
        ("345p", " pon=33p ", 1, "three equal tiles"),
        ("345p", " pon=334p ", 1, "three equal tiles"),
        ("345p", " kan=333p ", 1, "four equal tiles"),
        ("345p", " ankan= ", 1, "four equal tiles"),
    ] {
        let bad = good.replacen(from, to, 1);
        let fault = hand(&bad).expect_err(&bad);
        assert!(fault.word == word && fault.why.contains(why), "{bad}: {fault:?}");
    }
    let melds = "8s+8s chi=123m chi=123m chi=123m chi=123m chi=123m seat=1 tsumo";
    assert_eq!(hand(melds).map_err(|fault| fault.word), Err(5));
}
