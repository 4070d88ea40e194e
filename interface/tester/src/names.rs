//! Yaku, winds and points in words.

use other_scorer::notation::text;
use other_scorer::tiles::EAST;

/// Yaku 1 to 36 (01, Yaku).
const YAKU: [&str; 36] = [
    "tsumo",
    "all simples",
    "value triplet",
    "pinfu",
    "one twin run",
    "chankan",
    "rinshan",
    "last tile tsumo",
    "last tile ron",
    "riichi",
    "double riichi",
    "seven pairs",
    "same run in three suits",
    "123 456 789 of a suit",
    "yaochu in every group and pair",
    "same triplet in three suits",
    "four triplets",
    "three concealed triplets",
    "three kans",
    "only yaochu",
    "two twin runs",
    "terminal in every group and pair",
    "one suit and honours",
    "two dragon triplets, dragon pair",
    "one suit",
    "first turn, dealer",
    "first turn, other seat",
    "three dragon triplets",
    "three wind triplets and pair, or four",
    "four concealed triplets",
    "four kans",
    "honours only",
    "terminals only",
    "only sou 2 3 4 6 8 and hatsu",
    "1112345678999 and one more",
    "thirteen orphans",
];

/// The lowest number of a yakuman (01, Yaku).
pub const FIRST_YAKUMAN: usize = 26;

/// The name of a yaku by its number.
pub fn yaku(number: usize) -> &'static str {
    YAKU[number - 1]
}

/// A wind 0 to 3 by its letter, 0 for East.
pub fn wind(number: u8) -> String {
    text(&[EAST + number])
}

/// The wind of a seat for a dealer, both 0 to 3 (01, Yaku).
pub fn seat_wind(seat: u8, dealer: u8) -> String {
    wind((seat + 4 - dealer) % 4)
}

/// Points with a comma at each thousand.
pub fn points(number: i64) -> String {
    let digits = number.unsigned_abs().to_string();
    let mut text = String::new();
    for (at, digit) in digits.chars().enumerate() {
        if at > 0 && (digits.len() - at).is_multiple_of(3) {
            text.push(',');
        }
        text.push(digit);
    }
    if number < 0 {
        format!("-{text}")
    } else {
        text
    }
}

/// Points with their sign.
pub fn change(number: i64) -> String {
    if number > 0 {
        format!("+{}", points(number))
    } else {
        points(number)
    }
}

/// A number of things: "1 meld", "2 melds".
pub fn count(number: usize, thing: &str) -> String {
    format!("{number} {thing}{}", if number == 1 { "" } else { "s" })
}
