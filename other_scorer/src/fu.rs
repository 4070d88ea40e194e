//! Fu, item by item (01, Fu and points; 02, S-3).

use crate::shape::{Set, Shape};
use crate::tiles::is_yaochu;
use crate::win::Win;

/// The items of a reading's fu; groups are the reading's in its order, then the melds in the record's (02, S-3).
#[derive(Clone, Copy, Debug, Default, PartialEq, Eq)]
pub struct Items {
    pub base: u8,
    pub closed_ron: u8,
    pub pair: u8,
    pub groups: [u8; 4],
    pub wait: u8,
    pub tsumo: u8,
    pub rounding: u8,
}

/// Seven pairs: a base of 25 alone (02, S-3).
pub const SEVEN_PAIRS: Items = Items { base: 25, closed_ron: 0, pair: 0, groups: [0; 4], wait: 0, tsumo: 0, rounding: 0 };

impl Items {
    /// The items in order: base, closed ron, pair, the four groups, wait, tsumo, rounding (02, S-3).
    pub fn list(&self) -> [u8; 10] {
        let [a, b, c, d] = self.groups;
        [self.base, self.closed_ron, self.pair, a, b, c, d, self.wait, self.tsumo, self.rounding]
    }

    /// The fu: what the items add up to (02, S-3).
    pub fn total(&self) -> u8 {
        self.list().iter().sum()
    }
}

/// The fu of a triplet or kan; none for a run (01, Fu and points).
fn set_fu(set: &Set) -> u8 {
    let Some(kind) = set.triplet() else { return 0 };
    let simple = match (set.kan, set.concealed) {
        (false, false) => 2,
        (false, true) => 4,
        (true, false) => 8,
        (true, true) => 16,
    };
    if is_yaochu(kind) {
        2 * simple
    } else {
        simple
    }
}

/// The items of a regular reading; rounding is what was added up to tens, and an open 20's ten too (02, S-3).
pub fn regular(win: &Win, shape: &Shape) -> Items {
    let two_if = |holds: bool| if holds { 2 } else { 0 };
    let mut items = Items {
        base: 20,
        closed_ron: if win.closed && win.ron { 10 } else { 0 },
        pair: two_if(win.worth(shape.pair) > 0),
        wait: shape.wait_fu(),
        tsumo: two_if(!win.ron && !shape.is_pinfu(win)),
        ..Items::default()
    };
    for (group, set) in items.groups.iter_mut().zip(&shape.sets) {
        *group = set_fu(set);
    }
    let fu = items.total();
    let tens = fu.div_ceil(10) * 10;
    items.rounding = if !win.closed && tens == 20 { 30 } else { tens } - fu;
    items
}
