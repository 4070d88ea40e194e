//! How far an unfinished hand is from ready (02, S-14), suit by suit: every suit that is so many groups, with a pair or without, is listed
//! once; of each the tiles kept are counted, and the best of the suits and honours are added up.

use std::collections::BTreeSet;
use std::sync::OnceLock;

use crate::tiles::{EAST, YAOCHU};
use crate::unfinished::{pack, read, Unfinished};
use crate::waits::waits;

/// How often each number of a suit is there.
type Suit = [u8; 9];

/// The most tiles kept with 0 to 4 groups, without a pair and with one; none where no such tiles can be held.
type Kept = [[Option<u8>; 2]; 5];

/// A suit with some of its numbers more, unless over four of one would be there.
fn with(suit: &Suit, numbers: &[usize]) -> Option<Suit> {
    let mut more = *suit;
    numbers.iter().for_each(|&number| more[number] += 1);
    more.iter().all(|&times| times <= 4).then_some(more)
}

/// Every suit of 0 to 4 groups, without a pair and with one.
fn suits() -> &'static [[Vec<Suit>; 2]; 5] {
    static SUITS: OnceLock<[[Vec<Suit>; 2]; 5]> = OnceLock::new();
    SUITS.get_or_init(|| {
        let groups: Vec<[usize; 3]> = (0..7).map(|low| [low, low + 1, low + 2]).chain((0..9).map(|number| [number; 3])).collect();
        let mut plain = vec![BTreeSet::from([[0; 9]])];
        for count in 0..4 {
            plain.push(plain[count].iter().flat_map(|suit| groups.iter().filter_map(move |group| with(suit, group))).collect());
        }
        std::array::from_fn(|count| {
            let paired: BTreeSet<Suit> =
                plain[count].iter().flat_map(|suit| (0..9).filter_map(move |number| with(suit, &[number; 2]))).collect();
            [plain[count].iter().copied().collect(), paired.into_iter().collect()]
        })
    })
}

/// The better of two.
fn better(a: Option<u8>, b: Option<u8>) -> Option<u8> {
    a.max(b)
}

/// What a suit keeps: `times` are there, and there is room for `room` of each number beside the melds.
fn suit_kept(times: &[u8], room: &[u8]) -> Kept {
    let kept = |suit: &Suit| {
        let fits = suit.iter().zip(room).all(|(wanted, room)| wanted <= room);
        fits.then(|| suit.iter().zip(times).map(|(wanted, times)| wanted.min(times)).sum())
    };
    std::array::from_fn(|count| std::array::from_fn(|pair| suits()[count][pair].iter().map(kept).fold(None, better)))
}

/// What an honour keeps: nothing, a triplet or a pair of it.
fn honour_kept(times: u8, room: u8) -> Kept {
    let mut kept = Kept::default();
    kept[0][0] = Some(0);
    kept[1][0] = (room >= 3).then_some(times.min(3));
    kept[0][1] = (room >= 2).then_some(times.min(2));
    kept
}

/// What two parts of a hand keep together, one pair at most.
fn joined(a: Kept, b: Kept) -> Kept {
    let sum = |groups: usize, pair: usize| {
        let ways = (0..=groups).flat_map(|part| (0..=pair).map(move |with| (part, with)));
        ways.map(|(part, with)| Some(a[part][with]? + b[groups - part][pair - with]?)).fold(None, better)
    };
    std::array::from_fn(|groups| std::array::from_fn(|pair| sum(groups, pair)))
}

/// How many of each of the 34 kinds.
fn tally(tiles: &[u8]) -> [u8; 34] {
    std::array::from_fn(|kind| tiles.iter().filter(|&&tile| tile as usize == kind).count() as u8)
}

/// The most concealed tiles that a hand with a reading keeps, "melds kept and no kind over four held".
fn most_kept(hand: &Unfinished) -> u8 {
    let times = tally(hand.concealed());
    let room: [u8; 34] = {
        let melds: Vec<u8> = hand.melds().iter().flat_map(|meld| meld.tiles()).collect();
        tally(&melds).map(|held| 4 - held)
    };
    let east = EAST as usize;
    let suits = (0..east).step_by(9).map(|low| suit_kept(&times[low..low + 9], &room[low..low + 9]));
    let honours = (east..34).map(|kind| honour_kept(times[kind], room[kind]));
    let all = suits.chain(honours).reduce(joined).expect("three suits and seven honours");
    let regular = all[4 - hand.m as usize][1].expect("a pair and groups");
    if hand.m > 0 {
        return regular;
    }
    let mut twos = times.map(|times| times.min(2));
    twos.sort();
    let pairs = twos[27..].iter().sum();
    let ones = YAOCHU.map(|kind| times[kind as usize]);
    let orphans = ones.iter().map(|&times| times.min(1)).sum::<u8>() + u8::from(ones.iter().any(|&times| times > 1));
    regular.max(pairs).max(orphans)
}

/// "the fewest tiles that must be swapped for others .. until the hand is one tile short of a reading": a hand with a reading has a tile
/// more, which is left out among those that are not kept.
pub fn swaps(hand: &Unfinished) -> u8 {
    hand.concealed().len() as u8 - most_kept(hand)
}

/// The number for an unfinished hand's bytes, or the refusal.
pub fn find(bytes: &[u8]) -> Result<u8, u8> {
    read(bytes).map(|hand| swaps(&hand))
}

/// The tiles of a hand that another one lacks.
pub fn lacking(hand: &Unfinished, other: &Unfinished) -> u8 {
    let (mine, theirs) = (tally(hand.concealed()), tally(other.concealed()));
    mine.iter().zip(theirs).map(|(mine, theirs)| mine.saturating_sub(theirs)).sum()
}

/// "any one such hand that many swaps away": the places given are a ready hand beside the same melds, sound, with zeros after its tiles.
pub fn is_such(hand: &Unfinished, places: [u8; 13], swaps: u8) -> bool {
    let given = Unfinished { concealed: places, ..*hand };
    read(&pack(&given)) == Ok(given) && !waits(&given).is_empty() && lacking(hand, &given) == swaps
}
