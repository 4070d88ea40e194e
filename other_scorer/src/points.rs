//! The amount A and the payments (01, Fu and points).

/// A for a yakuman (01, Fu and points).
pub const YAKUMAN: u32 = 8000;

/// A for h and fu, with the limits (01, Fu and points).
pub fn basic(h: u8, fu: u8) -> u32 {
    match h {
        0..=4 => (fu as u32 * (4 << h)).min(2000),
        5 => 2000,
        6..=7 => 3000,
        8..=10 => 4000,
        _ => 6000,
    }
}

/// A payment rounded up to hundreds (01, Fu and points).
fn hundreds(points: u32) -> i32 {
    points.div_ceil(100) as i32 * 100
}

/// The four changes when the winner wins by ron (01, Fu and points).
pub fn ron(a: u32, winner: u8, discarder: u8, dealer: u8) -> [i32; 4] {
    let paid = hundreds(if winner == dealer { 6 * a } else { 4 * a });
    let mut changes = [0; 4];
    changes[winner as usize] = paid;
    changes[discarder as usize] = -paid;
    changes
}

/// The four changes when the winner wins by tsumo (01, Fu and points).
pub fn tsumo(a: u32, winner: u8, dealer: u8) -> [i32; 4] {
    let mut changes = [0; 4];
    for seat in (0..4).filter(|&seat| seat != winner) {
        let double = winner == dealer || seat == dealer;
        let paid = hundreds(if double { 2 * a } else { a });
        changes[seat as usize] -= paid;
        changes[winner as usize] += paid;
    }
    changes
}
