//! The proved core, each answer compared with the other scorer's.

use archive::{same, Cards, Claim, Differences, Judged, NextEntry, Position, ReadHand, Reading, Ready, Said, Scored, Waits, Written};
use archive::{CLAIM_MAX, RECORD_MAX, UNFINISHED_MAX};
use other_scorer::log::tally_lines;
use other_scorer::notation::hex::to_hex;
use other_scorer::say::calls::{self, Message};
use other_scorer::unfinished::Unfinished;
use other_scorer::{score, shown, slip, Hand};

use crate::answer::Answer;

/// Asks both, answers with the core's, and keeps what differs.
#[derive(Default)]
pub struct Core {
    pub differences: Differences,
}

impl Core {
    /// Read.
    pub fn read(&mut self, record: &[u8]) -> ReadHand {
        let answer = archive::read(record);
        self.differences.same("Read", answer, same::read(record), || to_hex(record));
        answer
    }

    /// Write, with the record.
    pub fn write(&mut self, hand: &Hand) -> (Written, [u8; RECORD_MAX]) {
        let hand = same::hand(hand);
        let (mut core, mut other) = ([0; RECORD_MAX], [0; RECORD_MAX]);
        let answer = archive::write(hand, &mut core);
        let wanted = same::write(&hand, &mut other);
        self.differences.same("Write", (answer, core), (wanted, other), || to_hex(&hand.bytes()));
        (answer, core)
    }

    /// Score.
    pub fn score(&mut self, record: &[u8], dealer: u8, wind: u8) -> Scored {
        let answer = archive::score(record, dealer, wind);
        let wanted = same::scored(&score(record, dealer, wind));
        let input = || format!("{} dealer {dealer} wind {wind}", to_hex(record));
        self.differences.same("Score", answer, wanted, input);
        answer
    }

    /// Every reading of a record's tiles, one before the first and one past the last asked for too; none where it is refused.
    pub fn readings(&mut self, record: &[u8], dealer: u8, wind: u8) -> Vec<Reading> {
        let other = shown::all(record, dealer, wind);
        let input = || format!("{} dealer {dealer} wind {wind}", to_hex(record));
        let (counted, wanted) = (archive::reading_count(record, dealer, wind), same::reading_count(&other));
        self.differences.same("the number of readings", counted, wanted, input);
        let mut list = Vec::new();
        for n in 0..=counted.count.min(wanted.count) + 1 {
            let answer = archive::reading(record, dealer, wind, n);
            self.differences.same("a reading", answer, same::reading(&other, n), || format!("{}, reading {n}", input()));
            list.push(answer);
        }
        list.retain(|answer| answer.refusal == 0);
        list
    }

    /// Compares a score with what is promised of it by another one; whether they are equal (02, S-12).
    pub fn promised(&mut self, what: &str, score: Scored, wanted: Scored, of: &Answer) -> bool {
        let input = || format!("{} dealer {} wind {}", to_hex(&of.record), of.dealer, of.wind);
        self.differences.same(what, score, wanted, input)
    }

    /// The slip of a record on a page that was blank, and its refusal.
    pub fn slip(&mut self, record: &[u8], dealer: u8, wind: u8, length: usize) -> (u8, Vec<u8>) {
        let (mut core, mut other) = (vec![b' '; length], vec![b' '; length]);
        let answer = archive::slip(record, dealer, wind, &mut core);
        let wanted = slip::write(&score(record, dealer, wind), &mut other);
        let input = || format!("{} dealer {dealer} wind {wind}, page of {length}", to_hex(record));
        self.differences.same("a slip", (answer, &core), (wanted, &other), input);
        (answer, core)
    }

    /// Waits.
    pub fn waits(&mut self, bytes: &[u8], discards: &[u8]) -> Waits {
        let answer = archive::waits(bytes, discards);
        let input = || format!("{} discards {}", to_hex(bytes), to_hex(discards));
        self.differences.same("Waits", answer, same::waits(bytes, discards), input);
        answer
    }

    /// Write of an unfinished hand, with its bytes.
    pub fn write_unfinished(&mut self, hand: &Unfinished) -> (Written, [u8; UNFINISHED_MAX]) {
        let held = same::held(hand);
        let (mut core, mut other) = ([0; UNFINISHED_MAX], [0; UNFINISHED_MAX]);
        let answer = archive::write_unfinished(held, &mut core);
        let wanted = same::write_unfinished(&held, &mut other);
        self.differences.same("Write of an unfinished hand", (answer, core), (wanted, other), || format!("{held:?}"));
        (answer, core)
    }

    /// The unfinished hand that a record is without its winning tile.
    pub fn unfinished(&mut self, record: &[u8]) -> (Written, [u8; UNFINISHED_MAX]) {
        let (mut core, mut other) = ([0; UNFINISHED_MAX], [0; UNFINISHED_MAX]);
        let answer = archive::unfinished(record, &mut core);
        let wanted = same::unfinished(record, &mut other);
        self.differences.same("the unfinished hand of a record", (answer, core), (wanted, other), || to_hex(record));
        (answer, core)
    }

    /// Ready.
    pub fn ready(&mut self, bytes: &[u8]) -> Ready {
        let answer = archive::ready(bytes);
        self.differences.same("Ready", answer, same::ready(bytes, &answer), || to_hex(bytes));
        answer
    }

    /// Practice cards in a buffer of a length.
    pub fn cards(&mut self, suit: u8, size: u8, length: usize) -> (Cards, Vec<u8>) {
        let (mut core, mut other) = (vec![0; length], vec![0; length]);
        let answer = archive::cards(suit, size, &mut core);
        let wanted = same::cards(suit, size, &mut other);
        let input = || format!("suit {suit}, size {size}, buffer of {length}");
        self.differences.same("cards", (answer, &core), (wanted, &other), input);
        (answer, core)
    }

    /// Judge.
    pub fn judge(&mut self, record: &[u8], claim: &[u8], dealer: u8, wind: u8) -> Judged {
        let answer = archive::judge(record, claim, dealer, wind);
        let input = || format!("{} claim {} dealer {dealer} wind {wind}", to_hex(record), to_hex(claim));
        self.differences.same("Judge", answer, same::judge(record, claim, dealer, wind), input);
        answer
    }

    /// Write claim: its answer, and the bytes.
    pub fn write_claim(&mut self, claim: &Claim) -> (Written, Vec<u8>) {
        let (mut core, mut other) = (vec![0; CLAIM_MAX], vec![0; CLAIM_MAX]);
        let answer = archive::write_claim(*claim, &mut core);
        let wanted = same::write_claim(claim, &mut other);
        self.differences.same("Write claim", (answer, &core), (wanted, &other), || format!("{claim:?}"));
        core.truncate(answer.len);
        (answer, core)
    }

    /// A message in a buffer of a length, and its clips, by a call of the archive, compared with the other scorer's.
    fn said(&mut self, wanted: &Message, length: usize, call: impl Fn(&mut [u8]) -> Said, input: impl Fn() -> String) -> (Said, Vec<u8>) {
        let (mut core, mut other) = (vec![0; length], vec![0; length]);
        let answer = call(&mut core);
        let wanted = same::said(wanted, &mut other);
        self.differences.same("a message", (answer, &core), (wanted, &other), || format!("{}, buffer of {length}", input()));
        core.truncate(answer.len.into());
        (answer, core)
    }

    /// The Score message.
    pub fn say_score(&mut self, language: u8, record: &[u8], dealer: u8, wind: u8, length: usize) -> (Said, Vec<u8>) {
        let wanted = calls::score(language, record, dealer, &score(record, dealer, wind));
        let input = || format!("Score of {} dealer {dealer} wind {wind} language {language}", to_hex(record));
        self.said(&wanted, length, |buf| archive::say_score(language, record, dealer, wind, buf), input)
    }

    /// The Fu message.
    pub fn say_fu(&mut self, language: u8, record: &[u8], dealer: u8, wind: u8, length: usize) -> (Said, Vec<u8>) {
        let wanted = calls::fu(language, &score(record, dealer, wind));
        let input = || format!("Fu of {} dealer {dealer} wind {wind} language {language}", to_hex(record));
        self.said(&wanted, length, |buf| archive::say_fu(language, record, dealer, wind, buf), input)
    }

    /// The Scores message.
    pub fn say_scores(&mut self, language: u8, position: &Position, length: usize) -> (Said, Vec<u8>) {
        let wanted = calls::scores(language, &same::to_other_position(position));
        let input = || format!("Scores of {position:?} language {language}");
        self.said(&wanted, length, |buf| archive::say_scores(language, position, buf), input)
    }

    /// The sentence for a refusal.
    pub fn say_refusal(&mut self, language: u8, number: u8, length: usize) -> (Said, Vec<u8>) {
        let input = || format!("Refusal {number} language {language}");
        self.said(&calls::refusal(language, number), length, |buf| archive::say_refusal(language, number, buf), input)
    }

    /// The Waits message.
    pub fn say_waits(&mut self, language: u8, bytes: &[u8], discards: &[u8], length: usize) -> (Said, Vec<u8>) {
        let input = || format!("Waits of {} discards {} language {language}", to_hex(bytes), to_hex(discards));
        let wanted = calls::waits(language, bytes, discards);
        self.said(&wanted, length, |buf| archive::say_waits(language, bytes, discards, buf), input)
    }

    /// The Ready message.
    pub fn say_ready(&mut self, language: u8, bytes: &[u8], length: usize) -> (Said, Vec<u8>) {
        let input = || format!("Ready of {} language {language}", to_hex(bytes));
        self.said(&calls::ready(language, bytes), length, |buf| archive::say_ready(language, bytes, buf), input)
    }

    /// Next entry.
    pub fn log_next(&mut self, log: &[u8], at: usize) -> NextEntry {
        let answer = archive::log_next(log, at);
        self.differences.same("Next entry", answer, same::next_entry(log, at), || format!("{} at {at}", to_hex(log)));
        answer
    }

    /// The lines of tally of a log.
    pub fn lines(&mut self, log: &[u8]) -> String {
        let lines = String::from_utf8_lossy(&archive::text(log)).into_owned();
        self.differences.same("the lines of tally", &lines, &tally_lines(log), || to_hex(log));
        lines
    }

    /// Whether nothing has differed so far, in words.
    pub fn verdict(&self) -> &'static str {
        if self.differences.count == 0 {
            "both scorers agree"
        } else {
            "THE TWO SCORERS DIFFER"
        }
    }
}
