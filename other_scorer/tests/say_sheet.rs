//! The sheet for the studio (docs/clips.tsv): it has the clips that messages have, no more and no fewer, in each language; and a number's
//! words on it are the number as people write it.

use std::collections::{BTreeMap, BTreeSet};

use other_scorer::codec::pack;
use other_scorer::deal::{drawn, near, themed};
use other_scorer::rng::Rng;
use other_scorer::say::spell::spelled;
use other_scorer::say::{calls, number, Language, LANGUAGES};
use other_scorer::unfinished::{self, Unfinished};
use other_scorer::{score, Position};

/// The words of each clip in a language.
fn sheet(language: Language) -> BTreeMap<u8, &'static str> {
    let column = ["ja", "en", "ko", "zh"][language as usize];
    let mut lines = include_str!("../../docs/clips.tsv").lines().map(|line| line.split('\t').collect::<Vec<_>>());
    let at = lines.next().expect("heads").iter().position(|head| *head == column).expect("a column");
    let words = lines.map(|line| (line[0].parse().expect("a clip"), line[at]));
    words.filter(|(_, words)| !words.is_empty()).collect()
}

/// The clips of messages of random hands and games, and of every refusal.
fn met(language: Language, rng: &mut Rng) -> BTreeSet<u8> {
    let key = language as u8 + 1;
    let mut clips = BTreeSet::new();
    let mut meet = |message: calls::Message| clips.extend(message.unwrap_or_default());
    (0..=22).for_each(|number| meet(calls::refusal(key, number)));
    for index in 0..15_000 {
        let (hand, dealer) = (themed(rng), rng.within(0, 3));
        let record = pack(&hand);
        let scored = score(&record, dealer, rng.within(0, 1));
        meet(calls::score(key, &record, dealer, &scored));
        meet(calls::fu(key, &scored));
        let whole = [themed, near, drawn][index % 3](rng);
        let bytes = unfinished::pack(&Unfinished { m: whole.m, melds: whole.melds, concealed: whole.concealed });
        meet(calls::waits(key, &bytes, &[rng.within(0, 33)]));
        if index < 300 {
            meet(calls::ready(key, &bytes));
        }
        let any = [(); 4].map(|_| rng.next() as i32 >> rng.below(32));
        let most = rng.below(32);
        meet(calls::scores(key, &Position { scores: any, sticks: rng.next() as u32 >> most, counter: index as u32, ..Position::fresh() }));
    }
    (0..5).for_each(|group| meet(calls::scores(key, &Position { sticks: 10_000_000 + group, ..Position::fresh() })));
    clips
}

#[test]
fn the_sheet_has_the_clips_of_messages() {
    let mut rng = Rng::new(3);
    for language in LANGUAGES {
        let sheet: BTreeSet<u8> = sheet(language).into_keys().collect();
        let met = met(language, &mut rng);
        let only = |a: &BTreeSet<u8>, b: &BTreeSet<u8>| a.difference(b).copied().collect::<Vec<_>>();
        assert_eq!((only(&sheet, &met), only(&met, &sheet)), (vec![], vec![]), "{language:?}: on the sheet alone, in messages alone");
    }
}

#[test]
fn a_number_on_the_sheet_is_as_people_write_it() {
    let mut rng = Rng::new(4);
    for language in LANGUAGES {
        let sheet = sheet(language);
        let between = if language == Language::English { " " } else { "" };
        for n in (0..20_000).chain((0..20_000).map(|_| rng.next() as u32 >> rng.below(32))).collect::<Vec<_>>() {
            let words: Vec<&str> = number(language, n).iter().map(|clip| sheet[clip]).collect();
            assert_eq!(words.join(between), spelled(language, n), "{n}");
        }
    }
}
