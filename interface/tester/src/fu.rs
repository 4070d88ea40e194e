//! The core's fu, item by item; each has its name by the reading that the core reports.

use other_scorer::notation::text;
use other_scorer::reading::Reading;
use other_scorer::shape::{Set, Shape, Wait};
use other_scorer::win::Win;
use other_scorer::Hand;

use crate::answer::Answer;
use crate::page::Page;

/// The names of the ten items for a reading: of a regular one each group with its tiles, and the wait.
fn names(answer: &Answer, hand: &Hand, reading: &Reading) -> Vec<String> {
    let parts = match shape(answer, hand, reading) {
        Some(shape) => shape.sets.iter().map(|set| set_words(set).join(" ")).chain([wait_name(shape.wait).into()]).collect(),
        None => ["group 1", "group 2", "group 3", "group 4", "wait"].map(String::from).to_vec(),
    };
    let fixed = |names: &[&str]| names.iter().map(|name| name.to_string()).collect();
    [fixed(&["base", "closed ron", "value pair"]), parts, fixed(&["tsumo", "rounding"])].concat()
}

/// A regular reading with the melds; none of another shape.
fn shape(answer: &Answer, hand: &Hand, reading: &Reading) -> Option<Shape> {
    let Reading::Regular { pair, groups, place } = reading else { return None };
    Some(Shape::new(&Win::new(hand, answer.dealer, answer.wind), *pair, groups, *place))
}

/// A wait in words.
fn wait_name(wait: Wait) -> &'static str {
    match wait {
        Wait::Pair => "wait on the pair",
        Wait::Middle => "wait on the middle of a run",
        Wait::Edge => "wait on 3 of 123 or 7 of 789",
        Wait::TwoSided => "wait on either side of a run",
        Wait::Triplet => "wait on a triplet",
    }
}

/// A group's way and kind in a word each, and its tiles.
fn set_words(set: &Set) -> [String; 3] {
    let tiles = set.group.tiles();
    let kan = if set.kan { &tiles[..1] } else { &[] };
    let way = if set.concealed { "concealed" } else { "open" };
    let kind = match (set.run(), set.kan) {
        (Some(_), _) => "run",
        (None, false) => "triplet",
        (None, true) => "kan",
    };
    [way.into(), kind.into(), text(&[&tiles, kan].concat())]
}

/// For scripts, of a regular reading that is reported: the pair, the four groups in the order of their fu, and the wait.
pub fn plain(page: &mut Page, answer: &Answer) {
    let (Some(hand), Some(reported)) = (answer.hand(), answer.reported()) else { return };
    if let Some(shape) = shape(answer, hand, &reported.reading) {
        page.plain("pair", [text(&[shape.pair; 2])]);
        shape.sets.iter().for_each(|set| page.plain("group", set_words(set)));
        let wait = match shape.wait {
            Wait::Pair => "pair",
            Wait::Middle => "middle",
            Wait::Edge => "edge",
            Wait::TwoSided => "sides",
            Wait::Triplet => "triplet",
        };
        page.plain("wait", [wait]);
    }
}

/// Each item that is not zero, then the total (02, S-3).
pub fn rows(page: &mut Page, answer: &Answer, hand: &Hand, reading: &Reading) {
    let (names, items) = (names(answer, hand, reading), answer.scored.items.list());
    let mut label = "fu items";
    for (name, item) in names.iter().zip(items).filter(|(_, item)| *item > 0) {
        page.figure(label, format!("   {name}"), item);
        label = "";
    }
    page.figure("fu", "", answer.scored.fu);
}
