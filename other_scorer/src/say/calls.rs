//! The six calls: a message or its refusal, and the message in a buffer (the paper's `Calls`). "Refusals, first match wins: 8, a language
//! that is not 1 to 4 (or a number over 22 to be said); those of the call whose answer is said, in its order; 13, a buffer shorter".

use crate::codec::read;
use crate::{ready, waits, Position, Scored};

use super::word::{clips, Word};
use super::{messages, Language};

/// The refusal of a language or a number to be said that there is not.
const NO_LANGUAGE: u8 = 8;

/// The refusal of a buffer that is shorter than the message.
const SHORT_BUFFER: u8 = 13;

/// The highest number of a refusal that has a sentence.
const LAST_REFUSAL: u8 = 22;

/// A message or its refusal.
pub type Message = Result<Vec<u8>, u8>;

/// The words of an answer in a language; 8 is met before the answer is asked for.
fn said(key: u8, words: impl FnOnce() -> Result<Vec<Word>, u8>) -> Message {
    let language = Language::of(key).ok_or(NO_LANGUAGE)?;
    Ok(clips(language, &words()?))
}

/// What a record scores, or its refusal.
fn accepted(scored: &Scored) -> Result<&Scored, u8> {
    if scored.refusal == 0 {
        Ok(scored)
    } else {
        Err(scored.refusal)
    }
}

/// The Score message of a record that scores so with that dealer.
pub fn score(language: u8, record: &[u8], dealer: u8, scored: &Scored) -> Message {
    said(language, || {
        let scored = accepted(scored)?;
        Ok(messages::score(&read(record)?, dealer, scored))
    })
}

/// The Fu message of a record that scores so.
pub fn fu(language: u8, scored: &Scored) -> Message {
    said(language, || Ok(messages::fu(accepted(scored)?)))
}

/// The Scores message of a position.
pub fn scores(language: u8, position: &Position) -> Message {
    said(language, || Ok(messages::scores(position)))
}

/// The sentence for a refusal.
pub fn refusal(language: u8, number: u8) -> Message {
    said(language, || if number > LAST_REFUSAL { Err(NO_LANGUAGE) } else { Ok(messages::refusal(number)) })
}

/// The Waits message of an unfinished hand's bytes with discards.
pub fn waits(language: u8, bytes: &[u8], discards: &[u8]) -> Message {
    said(language, || {
        let found = waits::find(bytes, discards);
        if found.refusal == 0 {
            Ok(messages::waits(&found))
        } else {
            Err(found.refusal)
        }
    })
}

/// The Ready message of an unfinished hand's bytes.
pub fn ready(language: u8, bytes: &[u8]) -> Message {
    said(language, || Ok(messages::ready(ready::find(bytes)?)))
}

/// Writes a message at the start of a buffer; the refusal and how many clips: "0 and how many clips, or the refusal and 0, with no byte of
/// the buffer changed; bytes past the message stay".
pub fn put(message: &Message, buffer: &mut [u8]) -> (u8, u16) {
    match message {
        Err(refusal) => (*refusal, 0),
        Ok(clips) => match buffer.get_mut(..clips.len()) {
            None => (SHORT_BUFFER, 0),
            Some(part) => {
                part.copy_from_slice(clips);
                (0, clips.len() as u16)
            }
        },
    }
}
