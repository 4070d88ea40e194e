//! Unfinished hands with discards, sound, damaged and any bytes, through Waits (02, S-1).

use archive::same;
use other_scorer::deal::{drawn, near, themed};
use other_scorer::notation::hex::to_hex as hex;
use other_scorer::rng::Rng;
use other_scorer::unfinished::{length, pack, Unfinished};

use crate::report::Report;
use crate::said;

/// The bytes of a hand without its winning tile; of one suit at times.
fn sound(rng: &mut Rng) -> Vec<u8> {
    if rng.percent(20) {
        let mut wall: Vec<u8> = (0..9).flat_map(|kind| [kind; 4]).collect();
        rng.shuffle(&mut wall);
        let first = 9 * rng.within(0, 2);
        let mut concealed: [u8; 13] = std::array::from_fn(|at| first + wall[at]);
        concealed.sort();
        return pack(&Unfinished { concealed, ..Unfinished::default() });
    }
    let whole = rng.pick(&[themed, near, drawn])(rng);
    pack(&Unfinished { m: whole.m, melds: whole.melds, concealed: whole.concealed })
}

/// The bytes of a hand: mostly sound, else a place altered, a bit flipped, cut, extended, any bytes, or of four kinds.
pub fn bytes(rng: &mut Rng) -> Vec<u8> {
    let mut bytes = sound(rng);
    match rng.below(20) {
        0 => {
            let at = rng.below(bytes.len());
            bytes[at] = rng.next() as u8;
        }
        1 | 2 => {
            let at = rng.below(bytes.len());
            bytes[at] ^= 1 << rng.below(8);
        }
        3 => bytes.truncate(rng.below(bytes.len())),
        4 => bytes.push(rng.next() as u8 % 2),
        5 => {
            let m = rng.within(0, 7);
            let length = if rng.percent(50) { length(m.min(4)) } else { rng.below(15) };
            bytes = (0..length).map(|_| rng.next() as u8).collect();
            bytes.iter_mut().take(1).for_each(|first| *first = m << 5 | *first & 31);
        }
        6 => {
            let first = rng.within(0, 30);
            let mut concealed: [u8; 13] = std::array::from_fn(|_| first + rng.within(0, 3));
            concealed.sort();
            bytes = pack(&Unfinished { concealed, ..Unfinished::default() });
        }
        _ => {}
    }
    bytes
}

/// The player's discards: none, some, or many; now and then one is no kind.
fn discards(rng: &mut Rng) -> Vec<u8> {
    let length = rng.pick(&[0, 1, 2, 6, 18, 300]);
    let mut discards: Vec<u8> = (0..length).map(|_| rng.within(0, 33)).collect();
    if rng.percent(5) && length > 0 {
        discards[rng.below(length)] = rng.within(34, 255);
    }
    discards
}

/// Compares Waits for one hand, and its message.
pub fn compare(report: &mut Report, rng: &mut Rng) {
    let (bytes, discards) = (bytes(rng), discards(rng));
    let (got, wanted) = (archive::waits(&bytes, &discards), same::waits(&bytes, &discards));
    report.count("Waits by refusal", wanted.refusal);
    if wanted.refusal == 0 {
        report.count("Waits by how many", wanted.waits.list().len() as u16);
        report.count("Waits in furiten", wanted.furiten);
    }
    report.same("Waits", got, wanted, || format!("{} discards {}", hex(&bytes), hex(&discards)));
    said::of_waits(report, rng, &bytes, &discards);
}
