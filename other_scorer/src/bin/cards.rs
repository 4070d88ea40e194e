//! Prints practice cards as program `practice` should: `cards`. How many of a suit and a size, then each on a line.

use other_scorer::cards::cards;
use other_scorer::notation::text;

/// Two tiles of man, five of pin, eight of sou.
const PRINTED: [(u8, u8); 3] = [(0, 2), (1, 5), (2, 8)];

fn main() {
    for (suit, size) in PRINTED {
        let list = cards(suit, size).expect("a suit and a size");
        println!("{:03}", list.len());
        list.iter().for_each(|card| println!("{}", text(card)));
    }
}
