//! Tile kinds 0 to 33 (01, Tiles and the hand record).

pub const EAST: u8 = 27;
pub const WHITE: u8 = 31;
pub const HATSU: u8 = 32;

/// The 13 yaochu kinds, ascending (01, Tiles).
pub const YAOCHU: [u8; 13] = [0, 8, 9, 17, 18, 26, 27, 28, 29, 30, 31, 32, 33];

/// The kinds yaku 34 allows: sou 2 3 4 6 8 and hatsu (01, Yaku).
pub const GREEN: [u8; 6] = [19, 20, 21, 23, 25, HATSU];

/// The suit, 0 man, 1 pin, 2 sou; none for an honour (01, Tiles).
pub fn suit(kind: u8) -> Option<u8> {
    (kind < EAST).then_some(kind / 9)
}

/// The number on a suit tile, 1 to 9; 0 for an honour (01, Tiles).
pub fn rank(kind: u8) -> u8 {
    if kind < EAST {
        kind % 9 + 1
    } else {
        0
    }
}

/// Honours are the winds and dragons (01, Tiles).
pub fn is_honour(kind: u8) -> bool {
    kind >= EAST
}

/// Winds are 27 to 30 (01, Tiles).
pub fn is_wind(kind: u8) -> bool {
    (EAST..WHITE).contains(&kind)
}

/// Dragons are white, hatsu, chun (01, Tiles).
pub fn is_dragon(kind: u8) -> bool {
    kind >= WHITE
}

/// Terminals are 1s and 9s (01, Tiles).
pub fn is_terminal(kind: u8) -> bool {
    matches!(rank(kind), 1 | 9)
}

/// Yaochu are terminals and honours (01, Tiles).
pub fn is_yaochu(kind: u8) -> bool {
    YAOCHU.contains(&kind)
}

/// A run can start at ranks 1 to 7 of a suit (01, Tiles).
pub fn starts_run(kind: u8) -> bool {
    matches!(rank(kind), 1..=7)
}

/// The dora named by an indicator: 9 to 1, North to East, chun to white (01, Fu and points).
pub fn dora_after(indicator: u8) -> u8 {
    match indicator {
        8 | 17 | 26 => indicator - 8,
        30 => 27,
        33 => 31,
        kind => kind + 1,
    }
}
