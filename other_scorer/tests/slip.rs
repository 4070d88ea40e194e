//! Slips (02, S-2), by hand and of random hands.

use other_scorer::codec::pack;
use other_scorer::deal::themed;
use other_scorer::notation::parse;
use other_scorer::rng::Rng;
use other_scorer::slip::{text, write};
use other_scorer::{score, Scored};

/// What a hand scores, dealer 0, East.
fn scored(line: &str) -> Scored {
    score(&pack(&parse(&line.split(' ').collect::<Vec<_>>()).expect("notation")), 0, 0)
}

#[test]
fn lines_1_and_9_of_the_table() {
    let one = "\
HAN                    2
FU                    30
SEAT 0                 0
SEAT 1              2000
SEAT 2                 0
SEAT 3             -2000
";
    assert_eq!(text(&scored("234567m345p2267s+8s seat=1 ron=3")), one);
    let nine = "\
HAN              YAKUMAN
FU                     0
SEAT 0            -16000
SEAT 1             32000
SEAT 2             -8000
SEAT 3             -8000
";
    assert_eq!(text(&scored("111m333p555s77s99s+7s seat=1 tsumo")), nine);
}

#[test]
fn pages_of_every_length() {
    let accepted = scored("234567m345p2267s+8s seat=1 ron=3");
    let refused = scored("456p78s234s99p+9s chi=123m seat=1 ron=3");
    for length in 0..=200 {
        let mut page = vec![0xa5; length];
        assert_eq!((write(&refused, &mut page), &page), (7, &vec![0xa5; length]));
        assert_eq!(write(&accepted, &mut page), if length < 150 { 16 } else { 0 });
        let slip = if length < 150 { String::new() } else { text(&accepted) };
        assert_eq!(page, [slip.as_bytes(), &vec![0xa5; length - slip.len()]].concat());
    }
}

#[test]
fn every_line_has_25_bytes() {
    let mut rng = Rng::new(2);
    for _ in 0..20_000 {
        let scored = score(&pack(&themed(&mut rng)), rng.within(0, 3), rng.within(0, 1));
        let text = text(&scored);
        assert_eq!(text.split_inclusive('\n').map(str::len).collect::<Vec<_>>(), [25; 6]);
    }
}
