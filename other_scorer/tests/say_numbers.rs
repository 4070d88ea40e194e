//! Numbers in four languages: the paper's table, and that each is heard as itself.

use std::thread;

use other_scorer::rng::Rng;
use other_scorer::say::hear::heard;
use other_scorer::say::spell::spelled;
use other_scorer::say::{number, Language, LANGUAGES};

/// The paper's table: Japanese, English, Korean, Mandarin.
const TABLE: [(u32, [&[u8]; 4]); 12] = [
    (1_300, [&[28, 21], &[1, 51, 21], &[28, 21], &[28, 21]]),
    (8_000, [&[35], &[8, 51], &[35], &[35]]),
    (10_500, [&[1, 37, 23], &[10, 51, 23], &[37, 23], &[1, 37, 0, 23]]),
    (12_000, [&[1, 37, 29], &[43, 51], &[37, 29], &[1, 37, 29]]),
    (20_000, [&[2, 37], &[11, 51], &[2, 37], &[41, 37]]),
    (110_010, [&[10, 1, 37, 10], &[19, 10, 51, 10], &[10, 1, 37, 10], &[10, 1, 37, 0, 40]]),
    (28_341_000, [&[29, 26, 12, 4, 37, 28], &[11, 8, 52, 21, 13, 1, 51], &[29, 26, 12, 4, 37, 28], &[29, 26, 12, 4, 37, 28]]),
    (10_000_000, [&[39, 37], &[10, 52], &[28, 37], &[28, 37]]),
    (12_300_000, [&[28, 20, 12, 37], &[43, 52, 21, 51], &[28, 20, 12, 37], &[28, 20, 12, 37]]),
    (105_000, [&[10, 37, 32], &[19, 5, 51], &[10, 37, 32], &[10, 37, 32]]),
    (100_010_000, [&[1, 38, 1, 37], &[19, 52, 10, 51], &[1, 38, 1, 37], &[1, 38, 0, 1, 37]]),
    (100_005_000, [&[1, 38, 32], &[19, 52, 5, 51], &[1, 38, 32], &[1, 38, 0, 32]]),
];

#[test]
fn the_paper_s_table() {
    for (n, row) in TABLE {
        for (language, clips) in LANGUAGES.into_iter().zip(row) {
            assert_eq!(number(language, n), clips, "{n} in {language:?}, {}", spelled(language, n));
        }
    }
}

#[test]
fn as_people_write_them() {
    for (n, row) in [
        (0, ["ゼロ", "zero", "영", "零"]),
        (7_700, ["七千七百", "seven thousand seven hundred", "칠천칠백", "七千七百"]),
        (11_500, ["一万千五百", "eleven thousand five hundred", "만천오백", "一万一千五百"]),
        (10_500, ["一万五百", "ten thousand five hundred", "만오백", "一万零五百"]),
        (2_202, ["二千二百二", "two thousand two hundred two", "이천이백이", "两千二百零二"]),
        (22_010, ["二万二千十", "twenty two thousand ten", "이만이천십", "两万两千零一十"]),
        (200_020_000, ["二億二万", "two hundred million twenty thousand", "이억이만", "两亿零两万"]),
        (1_010_011, ["百一万十一", "one million ten thousand eleven", "백일만십일", "一百零一万零一十一"]),
        (30_020_000, ["三千二万", "thirty million twenty thousand", "삼천이만", "三千零二万"]),
        (1_100_000_000, ["十一億", "one billion one hundred million", "십일억", "十一亿"]),
        (1_000_000_010, ["十億十", "one billion ten", "십억십", "十亿零一十"]),
        (410_000_000, ["四億一千万", "four hundred ten million", "사억천만", "四亿一千万"]),
        (10_010_000, ["千一万", "ten million ten thousand", "천일만", "一千零一万"]),
        (100_010_001, ["一億一万一", "one hundred million ten thousand one", "일억일만일", "一亿零一万零一"]),
        (
            u32::MAX,
            [
                "四十二億九千四百九十六万七千二百九十五",
                "four billion two hundred ninety four million nine hundred sixty seven thousand two hundred ninety five",
                "사십이억구천사백구십육만칠천이백구십오",
                "四十二亿九千四百九十六万七千二百九十五",
            ],
        ),
    ] {
        for (language, text) in LANGUAGES.into_iter().zip(row) {
            assert_eq!(spelled(language, n), text, "{n}");
        }
    }
}

/// What is heard of a number in a language is that number.
fn check(language: Language, n: u32) {
    let clips = number(language, n);
    assert_eq!(heard(&clips), Some(n as u64), "{n} in {language:?}: {clips:?}");
}

#[test]
fn every_number_below_200_000_is_heard() {
    let each = LANGUAGES.map(|language| thread::spawn(move || (0..200_000).for_each(|n| check(language, n))));
    each.into_iter().for_each(|thread| thread.join().expect("every number is heard"));
}

#[test]
fn numbers_of_32_bits_are_heard() {
    let mut rng = Rng::new(1);
    for language in LANGUAGES {
        (0..32).for_each(|bit| (0..3).for_each(|near| check(language, (1u32 << bit).wrapping_add(near).wrapping_sub(1))));
        (1..=u32::MAX / 10_000).step_by(97).for_each(|group| check(language, 10_000 * group));
        for _ in 0..50_000 {
            let any = rng.next() as u32;
            check(language, any >> rng.below(32));
            let digits: String = (0..9).map(|_| if rng.percent(60) { '0' } else { rng.within(b'1', b'9') as char }).collect();
            check(language, digits.parse().expect("nine digits"));
        }
    }
}

#[test]
fn what_is_no_number_is_not_heard() {
    assert_eq!([heard(&[]), heard(&[1, 60]), heard(&[66]), heard(&[37]), heard(&[0])], [None, None, None, Some(10_000), Some(0)]);
}
