//! Lines 1 to 12 of document 01's table of hands: dealer 0, East, indicator North unless said.

mod run;

use run::answer;

const NO_ITEMS: &str = "0 0 0 0 0 0 0 0 0 0";

/// The values of a key of `hand --plain`.
fn value(out: &str, key: &str) -> String {
    let mut lines = out.lines().map(|line| line.split_once(' ').unwrap_or((line, "")));
    lines.find(|(name, _)| *name == key).unwrap_or_else(|| panic!("{key} in {out}")).1.into()
}

/// A hand is accepted with these changes, and with h, fu and yaku where they are given.
fn paid(hand: &str, changes: &str, more: &[(&str, &str)]) {
    let out = answer(&format!("hand {hand} --plain"));
    for (key, wanted) in [("refusal", "0"), ("differences", "0"), ("changes", changes)].iter().chain(more) {
        assert_eq!(value(&out, key), *wanted, "{key} of {hand}");
    }
}

/// A hand is refused with this number, all else zero.
fn refused(hand: &str, refusal: &str) {
    let out = answer(&format!("hand {hand} --plain"));
    for (key, wanted) in
        [("refusal", refusal), ("h", "0"), ("fu", "0"), ("fu-items", NO_ITEMS), ("yaku", ""), ("tried", "0"), ("changes", "0 0 0 0")]
    {
        assert_eq!(value(&out, key), wanted, "{key} of {hand}");
    }
}

#[test]
fn lines_1_to_9() {
    let closed_ron = ("fu-items", "20 10 0 0 0 0 0 0 0 0");
    let base_alone = ("fu-items", "20 0 0 0 0 0 0 0 0 0");
    paid("234567m345p67s22s+8s seat=1 ron=3", "0 2000 0 -2000", &[("h", "2"), ("fu", "30"), ("yaku", "2 4"), closed_ron]);
    paid("234567m345p67s22s+8s seat=1 tsumo", "-1300 2700 -700 -700", &[base_alone]);
    paid("234567m345p67s22s+8s seat=0 ron=3", "2900 0 0 -2900", &[closed_ron]);
    paid("111222333m78s99p+9s seat=1 tsumo", "-6000 12000 -3000 -3000", &[("h", "6"), ("han", "1 1 1 3"), base_alone]);
    let on_the_pair = ("fu-items", "20 10 0 0 0 0 0 2 0 8");
    paid("112233m778899p5s+5s seat=1 ron=3", "0 5200 0 -5200", &[("h", "3"), ("fu", "40"), on_the_pair]);
    paid("567m456p67s22p+8s chi=234m seat=1 ron=3", "0 1000 0 -1000", &[("fu-items", "20 0 0 0 0 0 0 0 0 10")]);
    refused("456p78s234s99p+9s chi=123m seat=1 ron=3", "7");
    let triplets = [("h", "4"), ("fu", "50"), ("fu-items", "20 10 0 8 4 4 2 0 0 2")];
    paid("111m333p555s77s99s+7s seat=1 ron=3", "0 8000 0 -8000", &triplets);
    let yakuman = [("yaku", "30"), ("h", "0"), ("fu", "0"), ("fu-items", NO_ITEMS)];
    paid("111m333p555s77s99s+7s seat=1 tsumo", "-16000 32000 -8000 -8000", &yakuman);
}

#[test]
fn lines_10_and_11_by_hands_of_that_h_and_fu() {
    for (hand, h, fu, paid_to) in [
        ("234567m345p67s22s+8s riichi indicator=4p", "4", "30", 7700),
        ("222345m345p67s55s+8s indicator=1m", "4", "40", 8000),
        ("234567m345p67s22s+8s riichi indicator=1s", "5", "30", 8000),
        ("234567m345p67s22s+8s double indicator=1s", "6", "30", 12_000),
        ("123345567m78m22m+9m riichi", "8", "30", 16_000),
        ("12345678923m55m+4m riichi indicator=8m", "11", "30", 24_000),
    ] {
        let changes = format!("0 {paid_to} 0 -{paid_to}");
        paid(&format!("{hand} seat=1 ron=3"), &changes, &[("h", h), ("fu", fu)]);
    }
}

#[test]
fn line_12() {
    refused("1111m44m77m22p55p8p+8p seat=1 ron=3", "6");
}
