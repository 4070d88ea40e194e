//! The archive's calls (include/herbassolh.h) behind safe functions; nothing else declares them.
//! Each bool that comes back is a u8 here, so that a byte other than 0 or 1 is seen as a difference.

use std::fmt;

pub mod differences;
pub mod games;
pub mod same;

pub use differences::Differences;
pub use games::Games;

#[repr(C)]
#[derive(Clone, Copy, Debug, Default, PartialEq, Eq)]
pub struct Fields {
    pub how: u8,
    pub winner: u8,
    pub discarder: u8,
    pub riichi: u8,
    pub situation: u8,
    pub indicator: u8,
    pub winning: u8,
}

#[repr(C)]
#[derive(Clone, Copy, Debug, Default, PartialEq, Eq)]
pub struct Held {
    pub m: u8,
    pub melds: [u8; 4],
    pub concealed: [u8; 13],
}

#[repr(C)]
#[derive(Clone, Copy, Debug, Default, PartialEq, Eq)]
pub struct Hand {
    pub fields: Fields,
    pub held: Held,
}

#[repr(C)]
#[derive(Clone, Copy, Debug, PartialEq, Eq)]
pub struct ReadHand {
    pub refusal: u8,
    pub hand: Hand,
}

#[repr(C)]
#[derive(Clone, Copy, Debug, PartialEq, Eq)]
pub struct Written {
    pub refusal: u8,
    pub len: usize,
}

/// Yaku n at index n; shown as those that are held.
#[repr(transparent)]
#[derive(Clone, Copy, PartialEq, Eq)]
pub struct Yaku(pub [u8; 37]);

impl Yaku {
    /// The numbers of the yaku held.
    pub fn numbers(&self) -> Vec<usize> {
        (0..self.0.len()).filter(|&n| self.0[n] != 0).collect()
    }
}

impl fmt::Debug for Yaku {
    fn fmt(&self, f: &mut fmt::Formatter) -> fmt::Result {
        f.debug_map().entries(self.numbers().iter().map(|&n| (n, self.0[n]))).finish()
    }
}

#[repr(C)]
#[derive(Clone, Copy, Debug, PartialEq, Eq)]
pub struct Items {
    pub base: u8,
    pub ron: u8,
    pub pair: u8,
    pub group: [u8; 4],
    pub wait: u8,
    pub tsumo: u8,
    pub rounding: u8,
}

impl Items {
    /// The items in order, the four groups one by one.
    pub fn list(&self) -> [u8; 10] {
        let [a, b, c, d] = self.group;
        [self.base, self.ron, self.pair, a, b, c, d, self.wait, self.tsumo, self.rounding]
    }
}

#[repr(C)]
#[derive(Clone, Copy, Debug, PartialEq, Eq)]
pub struct Scored {
    pub refusal: u8,
    pub h: u16,
    pub fu: u8,
    pub items: Items,
    pub yaku: Yaku,
    pub tried: u32,
    pub changes: [i32; 4],
}

/// Han by yaku, yaku n at index n; shown as those that are not 0.
#[repr(transparent)]
#[derive(Clone, Copy, PartialEq, Eq)]
pub struct Han(pub [u16; 37]);

impl fmt::Debug for Han {
    fn fmt(&self, f: &mut fmt::Formatter) -> fmt::Result {
        f.debug_map().entries(self.0.iter().enumerate().filter(|(_, han)| **han != 0)).finish()
    }
}

#[repr(C)]
#[derive(Clone, Copy, Debug, PartialEq, Eq)]
pub struct Reading {
    pub count: u32,
    pub basic: u32,
    pub gain: u32,
    pub changes: [i32; 4],
    pub h: u16,
    pub dora: u16,
    pub han: Han,
    pub refusal: u8,
    pub shape: u8,
    pub pair: u8,
    pub groups: [u8; 4],
    pub place: u8,
    pub reported: u8,
    pub fu: u8,
    pub items: Items,
    pub yaku: Yaku,
}

#[repr(C)]
#[derive(Clone, Copy, Debug, PartialEq, Eq)]
pub struct ReadingCount {
    pub count: u32,
    pub refusal: u8,
}

/// Kind k at index k; shown as those that are waits.
#[repr(transparent)]
#[derive(Clone, Copy, PartialEq, Eq)]
pub struct Kinds(pub [u8; 34]);

impl Kinds {
    /// The kinds that are waits.
    pub fn list(&self) -> Vec<u8> {
        (0..34).filter(|&kind| self.0[kind as usize] != 0).collect()
    }
}

impl fmt::Debug for Kinds {
    fn fmt(&self, f: &mut fmt::Formatter) -> fmt::Result {
        f.debug_map().entries(self.list().iter().map(|&kind| (kind, self.0[kind as usize]))).finish()
    }
}

#[repr(C)]
#[derive(Clone, Copy, Debug, PartialEq, Eq)]
pub struct Waits {
    pub refusal: u8,
    pub waits: Kinds,
    pub furiten: u8,
}

#[repr(C)]
#[derive(Clone, Copy, Debug, Default, PartialEq, Eq)]
pub struct Ready {
    pub refusal: u8,
    pub swaps: u8,
    pub hand: [u8; 13],
}

#[repr(C)]
#[derive(Clone, Copy, Debug, PartialEq, Eq)]
pub struct Cards {
    pub refusal: u8,
    pub count: u16,
}

#[repr(C)]
#[derive(Clone, Copy, Debug, PartialEq, Eq)]
pub struct Claim {
    pub gain: u32,
    pub shape: u8,
    pub pair: u8,
    pub groups: [u8; 4],
    pub place: u8,
    pub m: u8,
}

#[repr(C)]
#[derive(Clone, Copy, Debug, PartialEq, Eq)]
pub struct Judged {
    pub refusal: u8,
    pub verdict: u8,
}

#[repr(C)]
#[derive(Clone, Copy, Debug, PartialEq, Eq)]
pub struct Said {
    pub refusal: u16,
    pub len: u16,
}

#[repr(C)]
#[derive(Clone, Copy, Debug, PartialEq, Eq)]
pub struct Position {
    pub scores: [i32; 4],
    pub sticks: u32,
    pub declared: [u8; 4],
    pub dealer: u8,
    pub wind: u8,
    pub hands: u8,
    pub over: u8,
    pub counter: u32,
    pub feeders: [u8; 8],
}

#[repr(C)]
#[derive(Clone, Copy, Debug, PartialEq, Eq)]
pub struct Game {
    pub now: Position,
    pub earlier: Position,
    pub correctable: u32,
}

#[repr(C)]
#[derive(Clone, Copy, Debug, Default, PartialEq, Eq)]
pub struct NextEntry {
    pub refusal: u8,
    pub end: u8,
    pub kind: u8,
    pub argument: u8,
    pub letter: u8,
    pub length: usize,
}

#[repr(C)]
#[derive(Clone, Copy, Debug, PartialEq, Eq)]
pub struct Walk {
    pub game: Game,
    pub entry: u32,
    pub at: usize,
}

#[repr(C)]
#[derive(Clone, Copy, Debug, PartialEq, Eq)]
pub struct Printed {
    pub written: usize,
    pub walk: Walk,
}

/// A buffer of so many bytes holds every record (HB_RECORD_MAX).
pub const RECORD_MAX: usize = 13;

/// And of so many every unfinished hand (HB_UNFINISHED_MAX).
pub const UNFINISHED_MAX: usize = 11;

/// A buffer of so many bytes holds every line of tally (HB_LINE_MAX).
pub const LINE_MAX: usize = 83;

/// A slip has so many bytes (HB_SLIP_LENGTH).
pub const SLIP_LENGTH: usize = 150;

/// A buffer of so many bytes holds every list of practice cards (HB_CARDS_MAX).
pub const CARDS_MAX: usize = 7968;

/// No claim has more bytes (HB_CLAIM_MAX).
pub const CLAIM_MAX: usize = 7;

/// A buffer of so many bytes holds every message (HB_MESSAGE_MAX).
pub const MESSAGE_MAX: usize = 155;

impl Hand {
    /// A hand from its 25 bytes as they lie in memory.
    pub fn of(bytes: [u8; 25]) -> Hand {
        let [how, winner, discarder, riichi, situation, indicator, winning, m, rest @ ..] = bytes;
        let [a, b, c, d, concealed @ ..] = rest;
        let fields = Fields { how, winner, discarder, riichi, situation, indicator, winning };
        Hand { fields, held: Held { m, melds: [a, b, c, d], concealed } }
    }

    /// The 25 bytes of a hand as they lie in memory.
    pub fn bytes(&self) -> [u8; 25] {
        let Fields { how, winner, discarder, riichi, situation, indicator, winning } = self.fields;
        let Held { m, melds: [a, b, c, d], concealed } = self.held;
        let mut bytes = [0; 25];
        bytes[..12].copy_from_slice(&[how, winner, discarder, riichi, situation, indicator, winning, m, a, b, c, d]);
        bytes[12..].copy_from_slice(&concealed);
        bytes
    }
}

extern "C" {
    fn hb_read(record: *const u8, len: usize) -> ReadHand;
    fn hb_write(hand: Hand, buffer: *mut u8, len: usize) -> Written;
    fn hb_score(record: *const u8, len: usize, dealer: u8, wind: u8) -> Scored;
    fn hb_reading(record: *const u8, len: usize, dealer: u8, wind: u8, n: u32) -> Reading;
    fn hb_reading_count(record: *const u8, len: usize, dealer: u8, wind: u8) -> ReadingCount;
    fn hb_slip(record: *const u8, record_len: usize, dealer: u8, wind: u8, page: *mut u8, len: usize) -> u8;
    fn hb_waits(hand: *const u8, len: usize, discards: *const u8, discards_len: usize) -> Waits;
    fn hb_ready(hand: *const u8, len: usize) -> Ready;
    fn hb_write_unfinished(held: Held, buffer: *mut u8, len: usize) -> Written;
    fn hb_unfinished(record: *const u8, record_len: usize, buffer: *mut u8, len: usize) -> Written;
    fn hb_cards(suit: u8, size: u8, buffer: *mut u8, len: usize) -> Cards;
    fn hb_judge(record: *const u8, len: usize, claim: *const u8, claim_len: usize, dealer: u8, wind: u8) -> Judged;
    fn hb_write_claim(claim: Claim, buffer: *mut u8, len: usize) -> Written;
    fn hb_fresh_game() -> Game;
    fn hb_riichi(game: &mut Game, seat: u8) -> u8;
    fn hb_win(game: &mut Game, record: *const u8, len: usize) -> u8;
    fn hb_draw(game: &mut Game, bits: u8) -> u8;
    fn hb_chombo(game: &mut Game, seat: u8) -> u8;
    fn hb_multi_ron(game: &mut Game, number: u8, records: *const u8, len: usize) -> u8;
    fn hb_pao(game: &mut Game, holder: u8, feeder: u8, yaku: u8) -> u8;
    fn hb_correct_win(game: &mut Game, record: *const u8, len: usize) -> u8;
    fn hb_correct_draw(game: &mut Game, bits: u8) -> u8;
    fn hb_correct_chombo(game: &mut Game, seat: u8) -> u8;
    fn hb_correct_multi_ron(game: &mut Game, number: u8, records: *const u8, len: usize) -> u8;
    fn hb_log_next(log: *const u8, len: usize, at: usize) -> NextEntry;
    fn hb_book_entry(game: &mut Game, part: *const u8, len: usize) -> u8;
    fn hb_log_start() -> Walk;
    fn hb_log_lines(walk: Walk, log: *const u8, log_len: usize, buffer: *mut u8, len: usize) -> Printed;
    fn hb_log_line(position: &Position, entry: u32, letter: u8, refusal: u8, buffer: *mut u8, len: usize) -> usize;
    fn hb_say_score(language: u8, record: *const u8, record_len: usize, dealer: u8, wind: u8, buffer: *mut u8, len: usize) -> Said;
    fn hb_say_fu(language: u8, record: *const u8, record_len: usize, dealer: u8, wind: u8, buffer: *mut u8, len: usize) -> Said;
    fn hb_say_scores(language: u8, position: &Position, buffer: *mut u8, len: usize) -> Said;
    fn hb_say_refusal(language: u8, number: u8, buffer: *mut u8, len: usize) -> Said;
    fn hb_say_waits(
        language: u8,
        hand: *const u8,
        hand_len: usize,
        discards: *const u8,
        discards_len: usize,
        buffer: *mut u8,
        len: usize,
    ) -> Said;
    fn hb_say_ready(language: u8, hand: *const u8, hand_len: usize, buffer: *mut u8, len: usize) -> Said;
}

// SAFETY, for every call below: the pointers and lengths are a slice's, which is never null; a game and a buffer that a
// call writes are borrowed alone, so nothing overlaps them; any bytes are a game, and a position.

/// Read.
pub fn read(record: &[u8]) -> ReadHand {
    unsafe { hb_read(record.as_ptr(), record.len()) }
}

/// Write.
pub fn write(hand: Hand, buffer: &mut [u8]) -> Written {
    unsafe { hb_write(hand, buffer.as_mut_ptr(), buffer.len()) }
}

/// Score.
pub fn score(record: &[u8], dealer: u8, wind: u8) -> Scored {
    unsafe { hb_score(record.as_ptr(), record.len(), dealer, wind) }
}

/// Reading: the n-th of a record's tiles, from 1.
pub fn reading(record: &[u8], dealer: u8, wind: u8, n: u32) -> Reading {
    unsafe { hb_reading(record.as_ptr(), record.len(), dealer, wind, n) }
}

/// How many readings a record's tiles have.
pub fn reading_count(record: &[u8], dealer: u8, wind: u8) -> ReadingCount {
    unsafe { hb_reading_count(record.as_ptr(), record.len(), dealer, wind) }
}

/// A slip.
pub fn slip(record: &[u8], dealer: u8, wind: u8, page: &mut [u8]) -> u8 {
    unsafe { hb_slip(record.as_ptr(), record.len(), dealer, wind, page.as_mut_ptr(), page.len()) }
}

/// Waits.
pub fn waits(hand: &[u8], discards: &[u8]) -> Waits {
    unsafe { hb_waits(hand.as_ptr(), hand.len(), discards.as_ptr(), discards.len()) }
}

/// Ready.
pub fn ready(hand: &[u8]) -> Ready {
    unsafe { hb_ready(hand.as_ptr(), hand.len()) }
}

/// Write, of an unfinished hand.
pub fn write_unfinished(held: Held, buffer: &mut [u8]) -> Written {
    unsafe { hb_write_unfinished(held, buffer.as_mut_ptr(), buffer.len()) }
}

/// The unfinished hand that a record is without its winning tile.
pub fn unfinished(record: &[u8], buffer: &mut [u8]) -> Written {
    unsafe { hb_unfinished(record.as_ptr(), record.len(), buffer.as_mut_ptr(), buffer.len()) }
}

/// Practice cards.
pub fn cards(suit: u8, size: u8, buffer: &mut [u8]) -> Cards {
    unsafe { hb_cards(suit, size, buffer.as_mut_ptr(), buffer.len()) }
}

/// Judge.
pub fn judge(record: &[u8], claim: &[u8], dealer: u8, wind: u8) -> Judged {
    unsafe { hb_judge(record.as_ptr(), record.len(), claim.as_ptr(), claim.len(), dealer, wind) }
}

/// Write claim.
pub fn write_claim(claim: Claim, buffer: &mut [u8]) -> Written {
    unsafe { hb_write_claim(claim, buffer.as_mut_ptr(), buffer.len()) }
}

/// A fresh game.
pub fn fresh_game() -> Game {
    unsafe { hb_fresh_game() }
}

/// Riichi.
pub fn riichi(game: &mut Game, seat: u8) -> u8 {
    unsafe { hb_riichi(game, seat) }
}

/// Win.
pub fn win(game: &mut Game, record: &[u8]) -> u8 {
    unsafe { hb_win(game, record.as_ptr(), record.len()) }
}

/// Draw.
pub fn draw(game: &mut Game, bits: u8) -> u8 {
    unsafe { hb_draw(game, bits) }
}

/// Chombo.
pub fn chombo(game: &mut Game, seat: u8) -> u8 {
    unsafe { hb_chombo(game, seat) }
}

/// Multiple ron: so many rons on one tile.
pub fn multi_ron(game: &mut Game, number: u8, records: &[u8]) -> u8 {
    unsafe { hb_multi_ron(game, number, records.as_ptr(), records.len()) }
}

/// Pao.
pub fn pao(game: &mut Game, holder: u8, feeder: u8, yaku: u8) -> u8 {
    unsafe { hb_pao(game, holder, feeder, yaku) }
}

/// A win instead of the last result.
pub fn correct_win(game: &mut Game, record: &[u8]) -> u8 {
    unsafe { hb_correct_win(game, record.as_ptr(), record.len()) }
}

/// A draw instead of the last result.
pub fn correct_draw(game: &mut Game, bits: u8) -> u8 {
    unsafe { hb_correct_draw(game, bits) }
}

/// A chombo instead of the last result.
pub fn correct_chombo(game: &mut Game, seat: u8) -> u8 {
    unsafe { hb_correct_chombo(game, seat) }
}

/// A multiple ron instead of the last result.
pub fn correct_multi_ron(game: &mut Game, number: u8, records: &[u8]) -> u8 {
    unsafe { hb_correct_multi_ron(game, number, records.as_ptr(), records.len()) }
}

/// Next entry.
pub fn log_next(log: &[u8], at: usize) -> NextEntry {
    unsafe { hb_log_next(log.as_ptr(), log.len(), at) }
}

/// Books the entry that a part of a log begins with.
pub fn book_entry(game: &mut Game, part: &[u8]) -> u8 {
    unsafe { hb_book_entry(game, part.as_ptr(), part.len()) }
}

/// A walk before a log's first entry.
pub fn log_start() -> Walk {
    unsafe { hb_log_start() }
}

/// Books entries from where a walk stands, with their lines of tally.
pub fn log_lines(walk: Walk, log: &[u8], buffer: &mut [u8]) -> Printed {
    unsafe { hb_log_lines(walk, log.as_ptr(), log.len(), buffer.as_mut_ptr(), buffer.len()) }
}

/// A line of tally.
pub fn log_line(position: &Position, entry: u32, letter: u8, refusal: u8, buffer: &mut [u8]) -> usize {
    unsafe { hb_log_line(position, entry, letter, refusal, buffer.as_mut_ptr(), buffer.len()) }
}

/// The Score message.
pub fn say_score(language: u8, record: &[u8], dealer: u8, wind: u8, buffer: &mut [u8]) -> Said {
    unsafe { hb_say_score(language, record.as_ptr(), record.len(), dealer, wind, buffer.as_mut_ptr(), buffer.len()) }
}

/// The Fu message.
pub fn say_fu(language: u8, record: &[u8], dealer: u8, wind: u8, buffer: &mut [u8]) -> Said {
    unsafe { hb_say_fu(language, record.as_ptr(), record.len(), dealer, wind, buffer.as_mut_ptr(), buffer.len()) }
}

/// The Scores message.
pub fn say_scores(language: u8, position: &Position, buffer: &mut [u8]) -> Said {
    unsafe { hb_say_scores(language, position, buffer.as_mut_ptr(), buffer.len()) }
}

/// The sentence for a refusal.
pub fn say_refusal(language: u8, number: u8, buffer: &mut [u8]) -> Said {
    unsafe { hb_say_refusal(language, number, buffer.as_mut_ptr(), buffer.len()) }
}

/// The Waits message.
pub fn say_waits(language: u8, hand: &[u8], discards: &[u8], buffer: &mut [u8]) -> Said {
    let (discards, discards_len) = (discards.as_ptr(), discards.len());
    unsafe { hb_say_waits(language, hand.as_ptr(), hand.len(), discards, discards_len, buffer.as_mut_ptr(), buffer.len()) }
}

/// The Ready message.
pub fn say_ready(language: u8, hand: &[u8], buffer: &mut [u8]) -> Said {
    unsafe { hb_say_ready(language, hand.as_ptr(), hand.len(), buffer.as_mut_ptr(), buffer.len()) }
}

/// All lines of a log, a buffer at a time. Each call that writes books an entry, so there are fewer of them than bytes.
pub fn text(log: &[u8]) -> Vec<u8> {
    let (mut walk, mut text, mut buffer) = (log_start(), Vec::new(), [0; 4096]);
    for _ in 0..=log.len() {
        let printed = log_lines(walk, log, &mut buffer);
        if printed.written == 0 {
            break;
        }
        text.extend_from_slice(&buffer[..printed.written.min(buffer.len())]);
        walk = printed.walk;
    }
    text
}
