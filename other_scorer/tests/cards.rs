//! Practice cards (02, S-9), by hand and against the readings of a hand.

use other_scorer::cards::{cards, write};
use other_scorer::notation::{text, tiles};

/// The cards of man by their text.
fn of_man(size: u8) -> Vec<String> {
    cards(0, size).expect("a size").iter().map(|card| text(card)).collect()
}

#[test]
fn the_nine_pairs() {
    assert_eq!(of_man(2), ["11m", "22m", "33m", "44m", "55m", "66m", "77m", "88m", "99m"]);
}

#[test]
fn how_many() {
    for suit in 0..3 {
        assert_eq!([2, 5, 8].map(|size| cards(suit, size).expect("a size").len()), [9, 135, 996]);
    }
}

#[test]
fn some_sets_of_five() {
    let five = of_man(5);
    assert_eq!(five[..4], ["11122m", "11123m", "11133m", "11144m"].map(String::from));
    assert_eq!(five[134], "88999m");
    for (set, there) in [("11122m", true), ("11234m", true), ("11112m", false), ("11111m", false), ("11289m", false), ("89991m", false)] {
        assert_eq!(five.contains(&set.to_string()), there, "{set}");
    }
}

/// Whether ascending tiles are a pair and groups, by taking a pair away and then the lowest tile's group.
fn splits(tiles: &[u8]) -> bool {
    fn groups(tiles: &[u8]) -> bool {
        let Some(&low) = tiles.first() else { return true };
        let runs = if low % 9 < 7 { vec![[low; 3], [low, low + 1, low + 2]] } else { vec![[low; 3]] };
        runs.iter().any(|group| without(tiles, group).is_some_and(|left| groups(&left)))
    }
    tiles.iter().any(|&kind| without(tiles, &[kind; 2]).is_some_and(|left| groups(&left)))
}

/// The tiles left when some are taken away.
fn without(tiles: &[u8], taken: &[u8]) -> Option<Vec<u8>> {
    let mut left = tiles.to_vec();
    for tile in taken {
        left.remove(left.iter().position(|kind| kind == tile)?);
    }
    Some(left)
}

#[test]
fn every_ascending_list() {
    for (suit, size) in [(0, 2), (1, 5), (2, 8), (0, 8)] {
        let (list, mut at) = (cards(suit, size).expect("a size"), 0);
        let mut tiles = vec![9 * suit; size as usize];
        loop {
            let is_card = tiles.windows(5).all(|five| five[0] < five[4]) && splits(&tiles);
            assert_eq!(list.get(at) == Some(&tiles), is_card, "{}", text(&tiles));
            at += is_card as usize;
            let Some(place) = (0..tiles.len()).rev().find(|&place| tiles[place] < 9 * suit + 8) else { break };
            let next = tiles[place] + 1;
            tiles[place..].fill(next);
        }
        assert_eq!(at, list.len());
    }
}

#[test]
fn buffers_of_every_length() {
    for length in 0..=30 {
        let mut buffer = vec![0xa5; length];
        assert_eq!(write(2, 2, &mut buffer), if length < 18 { Err(19) } else { Ok(9) });
        let list = if length < 18 { Vec::new() } else { tiles("112233445566778899s").expect("tiles") };
        assert_eq!(buffer, [&list[..], &vec![0xa5; length - list.len()]].concat());
    }
    let mut buffer = vec![0xa5; 10_000];
    for (suit, size) in [(3, 2), (255, 5), (0, 0), (0, 3), (0, 11), (1, 255)] {
        assert_eq!(write(suit, size, &mut buffer), Err(19));
    }
    assert_eq!(buffer, vec![0xa5; 10_000]);
}
