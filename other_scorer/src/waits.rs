//! What an unfinished hand waits for, and furiten (02, S-1). Tiles are not taken off here: every suit that is groups, with a pair or
//! without, is grown once, group by group, and a hand is finished where each of its suits is among them.

use std::collections::HashSet;
use std::sync::OnceLock;

use crate::tiles::{EAST, YAOCHU};
use crate::unfinished::{read, Unfinished};

/// The refusal of a discard that is no kind: "a discard over 33 with 15".
pub const NO_KIND: u8 = 15;

/// How often each number of a suit is there.
type Suit = [u8; 9];

/// What the call answers.
#[derive(Clone, Debug, Default, PartialEq, Eq)]
pub struct Waits {
    pub refusal: u8,
    pub waits: Vec<u8>,
    pub furiten: bool,
}

/// The suits that a step makes of these, none with over four of a number.
fn grown(suits: &HashSet<Suit>, steps: &[Suit]) -> HashSet<Suit> {
    let pairs = suits.iter().flat_map(|suit| steps.iter().map(move |step| (suit, step)));
    let sums = pairs.map(|(suit, step)| std::array::from_fn(|at| suit[at] + step[at]));
    sums.filter(|suit: &Suit| suit.iter().all(|&times| times <= 4)).collect()
}

/// Every suit that is up to four groups, without a pair and with one.
fn whole() -> &'static [HashSet<Suit>; 2] {
    static WHOLE: OnceLock<[HashSet<Suit>; 2]> = OnceLock::new();
    WHOLE.get_or_init(|| {
        let suit = |numbers: &[usize]| std::array::from_fn(|at| numbers.iter().filter(|&&number| number == at).count() as u8);
        let runs = (0..7).map(|low| suit(&[low, low + 1, low + 2]));
        let groups: Vec<Suit> = runs.chain((0..9).map(|number| suit(&[number; 3]))).collect();
        let pairs: Vec<Suit> = (0..9).map(|number| suit(&[number; 2])).collect();
        let (mut last, mut all) = (HashSet::from([[0; 9]]), HashSet::from([[0; 9]]));
        for _ in 0..4 {
            last = grown(&last, &groups);
            all.extend(&last);
        }
        let paired = grown(&all, &pairs);
        [all, paired]
    })
}

/// The tiles are groups and one pair: each suit and each honour is, and one of them has the pair.
fn is_regular(times: &[u8; 34]) -> bool {
    let suits = times[..EAST as usize].chunks(9).map(|suit| {
        let suit: Suit = suit.try_into().expect("nine numbers");
        (0..2).find(|&pairs| whole()[pairs].contains(&suit))
    });
    let honours = times[EAST as usize..].iter().map(|times| match times {
        0 | 3 => Some(0),
        2 => Some(1),
        _ => None,
    });
    suits.chain(honours).sum::<Option<usize>>() == Some(1)
}

/// "kinds that give a reading when added": of the concealed tiles with one more, beside so many melds.
fn is_finished(times: &[u8; 34], m: u8) -> bool {
    let pairs = times.iter().all(|&times| times == 0 || times == 2);
    let orphans = (0..34).all(|kind| (times[kind as usize] > 0) == YAOCHU.contains(&kind));
    is_regular(times) || m == 0 && (pairs || orphans)
}

/// "the set of kinds that give a reading when added, yaku or not. A kind already held four times is never among them".
pub fn waits(hand: &Unfinished) -> Vec<u8> {
    let mut times = [0; 34];
    hand.concealed().iter().for_each(|&tile| times[tile as usize] += 1);
    let with = |kind: u8| {
        let mut more = times;
        more[kind as usize] += 1;
        more
    };
    (0..34).filter(|&kind| hand.times(kind) < 4 && is_finished(&with(kind), hand.m)).collect()
}

/// The waits of an unfinished hand's bytes; "in furiten exactly when a discarded kind is a wait".
pub fn find(bytes: &[u8], discards: &[u8]) -> Waits {
    match read(bytes) {
        Err(refusal) => Waits { refusal, ..Waits::default() },
        Ok(_) if discards.iter().any(|&kind| kind > 33) => Waits { refusal: NO_KIND, ..Waits::default() },
        Ok(hand) => {
            let waits = waits(&hand);
            let furiten = discards.iter().any(|kind| waits.contains(kind));
            Waits { refusal: 0, waits, furiten }
        }
    }
}
