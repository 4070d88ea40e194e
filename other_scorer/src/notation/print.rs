//! From a hand to notation.

use super::parse::parse;
use super::tiles::text;
use crate::record::*;
use crate::sound::field_faults;

/// The word of a meld.
pub fn meld(meld: &Meld) -> String {
    let name = match meld.kind {
        CHI => "chi",
        PON => "pon",
        OPEN_KAN => "kan",
        _ => "ankan",
    };
    format!("{name}={}", text(&meld.tiles()))
}

/// The words of a hand whose fields are in range.
fn words(hand: &Hand) -> String {
    let mut words = vec![format!("{}+{}", text(hand.concealed()), text(&[hand.winning]))];
    words.extend(hand.melds().iter().map(meld));
    words.push(format!("seat={}", hand.winner));
    words.push(match hand.how {
        RON => format!("ron={}", hand.discarder),
        _ => "tsumo".into(),
    });
    words.push(["", "riichi", "double"][hand.riichi as usize].into());
    words.push(["", "rinshan", "chankan", "last", "first"][hand.situation as usize].into());
    words.push(format!("indicator={}", text(&[hand.indicator])));
    words.retain(|word| !word.is_empty());
    words.join(" ")
}

/// The notation of a hand, none if notation cannot say it: fields that meet refusal 2 (but for ron from the winner) or 3.
pub fn print(hand: &Hand) -> Option<String> {
    if field_faults(hand)[..8].contains(&true) {
        return None;
    }
    let text = words(hand);
    let back = parse(&text.split(' ').collect::<Vec<_>>());
    (back.as_ref() == Ok(hand)).then_some(text)
}
