//! Writes claims of the reported readings of a file of scored hands: `claims HANDS COUNT OUT`.
//! Each of the first COUNT hands that scores gives 24 bytes: the record's length and 13 bytes, dealer, wind, the claim's length and 7 bytes.

use std::{env, fs, process::ExitCode};

use other_scorer::claim::{pack, Claim};
use other_scorer::read;
use other_scorer::score::{best, valued};
use other_scorer::vector::LENGTH;

/// The 24 bytes of a vector, if it scores.
fn claim(vector: &[u8]) -> Option<[u8; 24]> {
    let (length, dealer, wind) = (vector[0] as usize, vector[17], vector[18]);
    let hand = read(&vector[1..1 + length]).ok().filter(|_| dealer < 4 && wind < 2)?;
    let (reading, value) = valued(&hand, dealer, wind).into_iter().nth(best(&valued(&hand, dealer, wind))?)?;
    let claim = pack(&Claim { reading, gain: value?.gain as u32 });
    let mut bytes = [0; 24];
    bytes[..1 + length].copy_from_slice(&vector[..1 + length]);
    bytes[14..17].copy_from_slice(&[dealer, wind, claim.len() as u8]);
    bytes[17..17 + claim.len()].copy_from_slice(&claim);
    Some(bytes)
}

/// Exit code 0: written; 1: not read or not written; 2: wrong arguments.
fn main() -> ExitCode {
    let arguments: Vec<String> = env::args().skip(1).collect();
    let (Some(count), [hands, _, out]) = (arguments.get(1).and_then(|word| word.parse().ok()), arguments.as_slice()) else {
        eprintln!("claims HANDS COUNT OUT");
        return ExitCode::from(2);
    };
    let made = fs::read(hands).map(|file| file.chunks_exact(LENGTH).take(count).filter_map(claim).collect::<Vec<_>>().concat());
    match made.and_then(|bytes| fs::write(out, bytes)) {
        Ok(()) => ExitCode::SUCCESS,
        Err(error) => {
            eprintln!("{error}");
            ExitCode::from(1)
        }
    }
}
