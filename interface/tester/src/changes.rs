//! Damaged copies of bytes: every bit changed, every cut, every two bytes swapped; or random ones.

use other_scorer::notation::hex::to_hex;
use other_scorer::rng::Rng;

use crate::names::count;

/// A damaged copy: the kind of change, which one it is, the first byte that differs, and the bytes.
pub struct Change {
    pub kind: &'static str,
    pub which: Which,
    pub first: usize,
    pub bytes: Vec<u8>,
}

/// A bit counted from 0, the most significant of a byte first; the length after a cut; two bytes; or the number of a random change.
pub enum Which {
    Bit(usize),
    Cut(usize),
    Swap(usize, usize),
    Random(usize),
}

impl Change {
    /// Which change it is of these bytes, in words.
    pub fn words(&self, of: &[u8]) -> String {
        match self.which {
            Which::Bit(bit) => format!("bit {bit}, byte {} {:02x} to {:02x}", bit / 8, of[bit / 8], self.bytes[bit / 8]),
            Which::Cut(end) => format!("to {}", count(end, "byte")),
            Which::Swap(a, b) => format!("byte {a} {:02x} and byte {b} {:02x}", of[a], of[b]),
            Which::Random(n) if self.first == self.bytes.len() => format!("number {n}, to {}", count(self.first, "byte")),
            Which::Random(n) => {
                let some = &self.bytes[self.first..self.bytes.len().min(self.first + SOME)];
                format!("number {n}, from byte {} on {}", self.first, to_hex(some))
            }
        }
    }

    /// The same for scripts: a bit, a length, two bytes or a number.
    pub fn numbers(&self) -> Vec<usize> {
        match self.which {
            Which::Bit(n) | Which::Cut(n) | Which::Random(n) => vec![n],
            Which::Swap(a, b) => vec![a, b],
        }
    }
}

/// How many bytes of a random change are shown.
const SOME: usize = 8;

/// The kinds of change that `every` makes, and the one that `random` makes.
pub const EVERY: [&str; 3] = ["bit changed", "cut", "bytes swapped"];
pub const RANDOM: &str = "random";

/// Every change of one bit, every cut, and every swap of two bytes that are not equal.
pub fn every(bytes: &[u8]) -> impl Iterator<Item = Change> + '_ {
    let n = bytes.len();
    let bits = (0..8 * n).map(move |bit| {
        let mut copy = bytes.to_vec();
        copy[bit / 8] ^= 0x80 >> (bit % 8);
        Change { kind: EVERY[0], which: Which::Bit(bit), first: bit / 8, bytes: copy }
    });
    let cuts = (0..n).map(move |end| Change { kind: EVERY[1], which: Which::Cut(end), first: end, bytes: bytes[..end].to_vec() });
    let pairs = (0..n).flat_map(move |a| (a + 1..n).map(move |b| (a, b)));
    let swaps = pairs.filter(move |&(a, b)| bytes[a] != bytes[b]).map(move |(a, b)| {
        let mut copy = bytes.to_vec();
        copy.swap(a, b);
        Change { kind: EVERY[2], which: Which::Swap(a, b), first: a, bytes: copy }
    });
    bits.chain(cuts).chain(swaps)
}

/// How many changes `every` makes of so many bytes, at most.
pub fn number_of(n: usize) -> usize {
    8 * n + n + n * n.saturating_sub(1) / 2
}

/// So many random changes of a seed, each of one to four steps.
pub fn random(bytes: &[u8], count: usize, seed: u64) -> impl Iterator<Item = Change> + '_ {
    let mut rng = Rng::new(seed);
    (1..=count).map(move |n| {
        let mut copy = bytes.to_vec();
        for _ in 0..1 + rng.below(4) {
            step(&mut rng, &mut copy);
        }
        let first = copy.iter().zip(bytes).position(|(a, b)| a != b).unwrap_or(copy.len().min(bytes.len()));
        Change { kind: RANDOM, which: Which::Random(n), first, bytes: copy }
    })
}

/// Changes a bit or a byte, adds or takes away a byte, swaps two, or cuts.
fn step(rng: &mut Rng, bytes: &mut Vec<u8>) {
    let value = rng.next() as u8;
    if bytes.is_empty() {
        return bytes.push(value);
    }
    let (at, other) = (rng.below(bytes.len()), rng.below(bytes.len()));
    match rng.below(11) {
        0..=2 => bytes[at] ^= 1 << (value % 8),
        3..=4 => bytes[at] = value,
        5..=6 => bytes.swap(at, other),
        7 => bytes.insert(at, value),
        8 => bytes.push(value),
        9 => drop(bytes.remove(at)),
        _ => bytes.truncate(at),
    }
}
