//! Counts of the fields, readings and results of sound hands.

use super::Survey;
use crate::cover::Cover;
use crate::points::{basic, YAKUMAN};
use crate::reading::Reading;
use crate::record::{Hand, RON};
use crate::score::{has_yakuman, Valued};
use crate::shape::Shape;
use crate::tiles::suit;
use crate::vector::{decided_by, first_is_not_best, has_tie, Vector};
use crate::win::Win;

/// The items of fu in order (02, S-3).
const ITEMS: [&str; 10] = ["base", "closed-ron", "pair", "group-1", "group-2", "group-3", "group-4", "wait", "tsumo", "rounding"];

const MELDS: [&str; 4] = ["chi count", "pon count", "open kan count", "closed kan count"];

impl Survey {
    /// Names the counts of this file.
    pub(super) fn expect_hands(&mut self) {
        let cover = &mut self.cover;
        cover.expect_numbers("sound, meld count", 0, 4);
        for name in MELDS {
            cover.expect_numbers(name, 0, 4);
        }
        cover.expect_numbers("sound, riichi", 0, 2);
        cover.expect_numbers("sound, situation", 0, 4);
        cover.expect("sound, edges", &["riichi-closed-kan", "four-with-indicator"]);
        cover.expect("won by", &["child-ron", "child-tsumo", "dealer-ron", "dealer-tsumo"]);
        cover.expect_numbers("dora", 0, 4);
        cover.expect("wait", &["Pair", "Middle", "Edge", "TwoSided", "Triplet"]);
        cover.expect("reported", &["regular", "seven-pairs", "orphans", "open-20-made-30"]);
        cover.expect("fu item", &ITEMS);
        cover.expect("winds", &["both-pair", "both-triplet", "24-and-triplet"]);
        cover.expect("A at a limit", &["2000", "3000", "4000", "6000", "8000"]);
        cover.watch("h");
        cover.watch("fu");
        cover.expect("readings", &["1", "2", "3", "4", "5-8", "9+", "several-places"]);
        cover.expect("tried", &["all", "first-yakuman", "later-yakuman", "some-left", "several-and-some-left"]);
        cover.expect(
            "accepted",
            &[
                "one-suit",
                "several-yakuman",
                "tie-other-yaku-set",
                "tie-without-yakuman",
                "first-valuable-not-best",
                "chosen-by-h",
                "chosen-by-fu",
                "a-reading-without-yaku",
            ],
        );
        cover.expect_kinds("winning tile");
        cover.expect_kinds("indicator");
    }

    /// Counts the fields of a sound hand.
    pub(super) fn note_sound(&mut self, hand: &Hand) {
        let cover = &mut self.cover;
        cover.add("sound, meld count", hand.m);
        for (kind, name) in MELDS.iter().enumerate() {
            let count = hand.melds().iter().filter(|meld| meld.kind as usize == kind).count();
            cover.add(name, count);
        }
        cover.add("sound, riichi", hand.riichi);
        cover.add("sound, situation", hand.situation);
        cover.add_if(hand.riichi == 1 && hand.m > 0, "sound, edges", "riichi-closed-kan");
        let four = hand.seen().iter().filter(|&&tile| tile == hand.indicator).count() == 4;
        cover.add_if(four, "sound, edges", "four-with-indicator");
        cover.add("winning tile", hand.winning);
        cover.add("indicator", hand.indicator);
    }

    /// Counts readings, groupings and places.
    pub(super) fn note_readings(&mut self, all: &[Valued]) {
        let label = match all.len() {
            0 => return,
            1..=4 => all.len().to_string(),
            5..=8 => "5-8".into(),
            _ => "9+".into(),
        };
        self.cover.add("readings", label);
        let regular = all.iter().filter_map(|(reading, _)| match reading {
            Reading::Regular { pair, groups, .. } => Some((pair, groups)),
            _ => None,
        });
        let mut groupings: Vec<_> = regular.collect();
        let places = groupings.iter().map(|one| groupings.iter().filter(|&two| one == two).count());
        let places = places.max().unwrap_or(0);
        groupings.dedup();
        self.cover.add_if(places > 1, "readings", "several-places");
        self.most_readings = self.most_readings.max(all.len());
        self.most_groupings = self.most_groupings.max(groupings.len());
        self.most_places = self.most_places.max(places);
    }

    /// Counts what is reported for an accepted hand.
    pub(super) fn note_accepted(&mut self, vector: &Vector, hand: &Hand, all: &[Valued], at: usize) {
        let cover = &mut self.cover;
        let win = Win::new(hand, vector.dealer, vector.wind);
        let seat = if hand.winner == vector.dealer { "dealer" } else { "child" };
        let how = if hand.how == RON { "ron" } else { "tsumo" };
        cover.add("won by", format!("{seat}-{how}"));
        cover.add("dora", win.dora());
        let yakuman = has_yakuman(vector.scored.yaku);
        cover.add_if(!yakuman, "h", vector.scored.h);
        cover.add_if(!yakuman, "fu", vector.scored.fu);
        for (name, item) in ITEMS.iter().zip(vector.scored.items.list()) {
            cover.add_if(item > 0, "fu item", name);
        }
        let a = if yakuman { YAKUMAN } else { basic(vector.scored.h, vector.scored.fu) };
        cover.add_if(a >= 2000, "A at a limit", a);
        let (tried, some_left) = (vector.scored.tried, (vector.scored.tried as usize) < all.len());
        cover.add_if(!yakuman, "tried", "all");
        cover.add_if(yakuman && tried == 1, "tried", "first-yakuman");
        cover.add_if(yakuman && tried > 1, "tried", "later-yakuman");
        cover.add_if(some_left, "tried", "some-left");
        cover.add_if(some_left && tried > 1, "tried", "several-and-some-left");
        match &all[at].0 {
            Reading::Regular { pair, groups, place } => {
                cover.add("reported", "regular");
                let shape = Shape::new(&win, *pair, groups, *place);
                note_shape(cover, &win, &shape, yakuman);
                let both = vector.scored.yaku >> 24 & vector.scored.yaku >> 3 & 1 == 1;
                cover.add_if(both, "winds", "24-and-triplet");
            }
            Reading::SevenPairs => cover.add("reported", "seven-pairs"),
            Reading::ThirteenOrphans => cover.add("reported", "orphans"),
        }
        let first = suit(win.held[0]);
        let one_suit = first.is_some() && win.held.iter().all(|&tile| suit(tile) == first);
        let tie = has_tie(all);
        let (by_h, by_fu) = decided_by(all);
        let tests = [
            (one_suit, "one-suit"),
            (yakuman && vector.scored.yaku.count_ones() > 1, "several-yakuman"),
            (tie, "tie-other-yaku-set"),
            (tie && !yakuman, "tie-without-yakuman"),
            (first_is_not_best(all), "first-valuable-not-best"),
            (by_h, "chosen-by-h"),
            (by_fu, "chosen-by-fu"),
            (all.iter().any(|one| one.1.is_none()), "a-reading-without-yaku"),
        ];
        for (test, label) in tests {
            cover.add_if(test, "accepted", label);
        }
    }
}

/// Counts the wait, an open 20 made 30, and a wind that is both round and own.
fn note_shape(cover: &mut Cover, win: &Win, shape: &Shape, yakuman: bool) {
    cover.add("wait", format!("{:?}", shape.wait));
    let bare = shape.runs().len() == 4 && shape.wait_fu() == 0 && win.worth(shape.pair) == 0;
    let open_ron = !yakuman && !win.closed && win.ron;
    cover.add_if(bare && open_ron, "reported", "open-20-made-30");
    let double = win.round == win.own;
    cover.add_if(double && shape.pair == win.own, "winds", "both-pair");
    let triplet = shape.triplets().contains(&win.own);
    cover.add_if(double && triplet, "winds", "both-triplet");
}
