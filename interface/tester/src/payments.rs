//! The amount A, and who pays what, as the core gives them.

use archive::Scored;
use other_scorer::record::RON;
use other_scorer::Hand;

use crate::answer::Answer;
use crate::names::{change, points, seat_wind};
use crate::page::Page;

/// How the core's amount A comes about (01, Fu and points).
fn amount(scored: &Scored, a: u32) -> String {
    let (h, fu) = (scored.h, scored.fu);
    let plain = fu as u32 * (4 << h.min(5));
    let limit = match h {
        0 => return "   A, yakuman".into(),
        1..=4 if plain == a => return format!("   A = {fu} fu x 2^({h} + 2)"),
        1..=4 => format!("{} exceeds 2,000", points(plain as i64)),
        5 => "h 5".into(),
        6..=7 => "h 6 to 7".into(),
        8..=10 => "h 8 to 10".into(),
        _ => "h 11 up".into(),
    };
    format!("   A, limit: {limit}")
}

/// A, and what each seat pays or is paid.
pub fn rows(page: &mut Page, answer: &Answer, hand: &Hand, a: u32) {
    page.figure("points", amount(&answer.scored, a), points(a as i64));
    let ron = hand.how == RON;
    for (seat, &moved) in (0..4).zip(&answer.scored.changes) {
        let dealer = if seat == answer.dealer { "dealer" } else { "child" };
        let times = match (ron, hand.winner == answer.dealer, seat == answer.dealer) {
            (true, true, _) => 6,
            (true, false, _) => 4,
            (false, false, false) => 1,
            (false, ..) => 2,
        };
        let role = match moved {
            0 => String::new(),
            1.. => "wins".into(),
            _ if times == 1 => "pays A".into(),
            _ => format!("pays {times} A = {}", points(times * a as i64)),
        };
        let text = format!("   {} {dealer:<6}  {role}", seat_wind(seat, answer.dealer));
        page.figure(&format!("seat {seat}"), text, change(moved as i64));
    }
}
