//! The six messages in words (the paper's `Messages`).

use crate::record::{Hand, RON};
use crate::score::has_yakuman;
use crate::waits::Waits;
use crate::{Position, Scored};

use super::word::Word;

/// "A player is named by the seat's wind", counted on from the dealer's seat.
fn player(seat: usize, dealer: u8) -> Word {
    let winds = (0..4u8).cycle().skip(4 - dealer as usize % 4);
    Word::Player(winds.into_iter().nth(seat).expect("a wind"))
}

/// A player, what he does, how many points.
fn amount(seat: usize, dealer: u8, does: Option<Word>, points: u32) -> Vec<Word> {
    let does = does.into_iter();
    [player(seat, dealer)].into_iter().chain(does).chain([Word::Number(points), Word::Points]).collect()
}

/// The name of the limit that is paid, by what the winner gets of the amount A: 6 A as the dealer, 4 A as a child.
fn limit(gain: i32, is_dealer: bool) -> Option<Word> {
    match gain / if is_dealer { 6 } else { 4 } {
        2_000 => Some(Word::Mangan),
        3_000 => Some(Word::Haneman),
        4_000 => Some(Word::Baiman),
        6_000 => Some(Word::Sanbaiman),
        _ => None,
    }
}

/// Score of a hand that scores so: "the winner; 64 or 65; each yaku of the set, ascending; with a yakuman 75, otherwise h, 69, fu, 70 and,
/// where a limit is paid, its name; then of seats 0 to 3 each that pays: the player, 66, the amount, 68; then the winner, 67, the gain, 68".
pub fn score(hand: &Hand, dealer: u8, scored: &Scored) -> Vec<Word> {
    let winner = hand.winner as usize;
    let gain = scored.changes[winner];
    let mut words = vec![player(winner, dealer), if hand.how == RON { Word::Ron } else { Word::Tsumo }];
    words.extend((1..=36).filter(|n| scored.yaku >> n & 1 == 1).map(Word::Yaku));
    if has_yakuman(scored.yaku) {
        words.push(Word::Yakuman);
    } else {
        words.extend([Word::Number(scored.h.into()), Word::Han, Word::Number(scored.fu.into()), Word::Fu]);
        words.extend(limit(gain, hand.winner == dealer));
    }
    let payers = (0..4).filter(|&seat| scored.changes[seat] < 0);
    words.extend(payers.flat_map(|seat| amount(seat, dealer, Some(Word::Pays), scored.changes[seat].unsigned_abs())));
    words.extend(amount(winner, dealer, Some(Word::Gets), gain.unsigned_abs()));
    words
}

/// Fu of a hand that scores so: "each item that is not 0: its clip and its number; 94, the fu, 70. With a yakuman: 75".
pub fn fu(scored: &Scored) -> Vec<Word> {
    if has_yakuman(scored.yaku) {
        return vec![Word::Yakuman];
    }
    let items = (0..).zip(scored.items.list()).filter(|(_, item)| *item > 0);
    let each = items.flat_map(|(at, item)| [Word::Item(at), Word::Number(item.into())]);
    each.chain([Word::InAll, Word::Number(scored.fu.into()), Word::Fu]).collect()
}

/// Scores of a position: "of seats 0 to 3 the player, 76 where negative, the amount, 68; 77 and the sticks where there are any; 78 and the
/// counters where there are any"; "a dealer over 3 counts as dealer mod 4".
pub fn scores(position: &Position) -> Vec<Word> {
    let each = (0..4).flat_map(|seat| {
        let score = position.scores[seat];
        amount(seat, position.dealer, (score < 0).then_some(Word::Minus), score.unsigned_abs())
    });
    let rest = [(Word::Sticks, position.sticks), (Word::Counters, position.counter)];
    let rest = rest.into_iter().filter(|(_, number)| *number > 0).flat_map(|(word, number)| [word, Word::Number(number)]);
    each.chain(rest).collect()
}

/// Refusal: "from 0 (accepted) to 22".
pub fn refusal(number: u8) -> Vec<Word> {
    vec![Word::Refusal(number)]
}

/// Waits of a hand that waits so: "79 and the tiles ascending, or 80; 81 where it is in furiten".
pub fn waits(found: &Waits) -> Vec<Word> {
    let head = if found.waits.is_empty() { Word::WaitsForNothing } else { Word::WaitsFor };
    let tiles = found.waits.iter().map(|&kind| Word::Tile(kind));
    [head].into_iter().chain(tiles).chain(found.furiten.then_some(Word::Furiten)).collect()
}

/// Ready of a hand so many swaps away: "82, or the swaps and 83".
pub fn ready(swaps: u8) -> Vec<Word> {
    match swaps {
        0 => vec![Word::Ready],
        _ => vec![Word::Number(swaps.into()), Word::FromReady],
    }
}
