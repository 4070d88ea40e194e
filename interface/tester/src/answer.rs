//! The core's answer to a record, and every reading of its tiles.

use archive::{same, Scored};
use other_scorer::codec::unpack;
use other_scorer::notation::hex::to_hex;
use other_scorer::notation::{print, text};
use other_scorer::reading::Reading;
use other_scorer::Hand;

use crate::both::Core;
use crate::input;
use crate::names::{count, seat_wind, wind, FIRST_YAKUMAN};
use crate::page::Page;
use crate::refusals;
use crate::words::{Bad, Words};

/// A reading that the core gives: its number, from 1, its parts, and what it is worth.
pub struct Listed {
    pub n: usize,
    pub reading: Reading,
    pub worth: archive::Reading,
}

pub struct Answer {
    pub record: Vec<u8>,
    pub dealer: u8,
    pub wind: u8,
    pub scored: Scored,
    /// The fields and whether a padding bit is set; none with refusal 1.
    fields: Option<(Hand, bool)>,
    /// Every reading; none where the record, the dealer or the wind is refused.
    pub readings: Vec<Listed>,
    /// What of the typed words may be meant otherwise.
    notes: Vec<String>,
}

impl Answer {
    /// The answer to the words of a command.
    pub fn of(core: &mut Core, mut words: Words) -> Result<Answer, Bad> {
        let (dealer, wind) = input::table(&mut words)?;
        let record = input::record(core, &words)?;
        Ok(Answer { notes: input::notes(&words), ..Answer::to(core, record, dealer, wind) })
    }

    /// The answer to a record, for a dealer and a wind.
    pub fn to(core: &mut Core, record: Vec<u8>, dealer: u8, wind: u8) -> Answer {
        core.read(&record);
        let scored = core.score(&record, dealer, wind);
        let fields = unpack(&record).ok();
        // Numbers that name no reading differ from the other scorer's, and that is told.
        let list = (1..).zip(core.readings(&record, dealer, wind));
        let readings = list.filter_map(|(n, worth)| Some(Listed { n, reading: same::to_other_reading(&worth)?, worth })).collect();
        Answer { record, dealer, wind, scored, fields, readings, notes: Vec::new() }
    }

    /// The hand of a record that Read accepts.
    pub fn hand(&self) -> Option<&Hand> {
        self.fields.as_ref().map(|(hand, _)| hand)
    }

    /// The hand of a sound record, at a table with a dealer and a wind.
    pub fn sound(&self) -> Option<&Hand> {
        self.hand().filter(|_| matches!(self.scored.refusal, 0 | 6 | 7))
    }

    /// The reported reading.
    pub fn reported(&self) -> Option<&Listed> {
        self.readings.iter().find(|listed| listed.worth.reported != 0)
    }

    /// The notation that gives this very record, if there is one.
    fn notation(&self) -> Option<String> {
        self.fields.as_ref().filter(|(_, padding)| !padding).and_then(|(hand, _)| print(hand))
    }

    /// The conditions that the refusal met.
    fn met(&self) -> Vec<String> {
        refusals::of_record(self.scored.refusal, &self.record, self.dealer, self.wind)
    }

    /// What was asked, whether it was accepted, and how many readings were tried, each with its label.
    pub fn rows(&self) -> Vec<(&'static str, String)> {
        let hand = self.hand().map(|hand| print(hand).unwrap_or_else(|| fields(hand)));
        let winner = self.hand().filter(|_| self.dealer < 4).map(|hand| hand.winner);
        let own = winner.map(|winner| format!("; the winner is {}", seat_wind(winner, self.dealer)));
        let round = if self.wind < 2 { wind(self.wind) } else { self.wind.to_string() };
        let mut rows = vec![
            ("hand", hand.unwrap_or("none".into())),
            ("table", format!("dealer={} wind={round}{}", self.dealer, own.unwrap_or_default())),
            ("record", format!("{}, {}", to_hex(&self.record), count(self.record.len(), "byte"))),
            ("answer", refusals::sentence(self.scored.refusal, &self.met())),
        ];
        if self.scored.refusal == 0 {
            let end = match (self.scored.yaku.numbers().last(), self.scored.tried) {
                (Some(&(FIRST_YAKUMAN..)), 1) => ", a yakuman",
                (Some(&(FIRST_YAKUMAN..)), _) => ", the last a yakuman",
                _ => "",
            };
            rows.push(("tried", format!("{}{end}", count(self.scored.tried as usize, "reading"))));
        }
        rows
    }

    /// The same on a page, with the notes.
    pub fn head(&self, page: &mut Page) {
        self.rows().iter().for_each(|(label, text)| page.row(label, text));
        self.notes(page);
    }

    /// What of the typed words may be meant otherwise, a line each.
    pub fn notes(&self, page: &mut Page) {
        self.notes.iter().for_each(|note| page.row("note", note));
    }

    /// The same for scripts.
    pub fn plain_head(&self, page: &mut Page) {
        page.plain("notation", self.notation());
        page.plain("dealer", [self.dealer]);
        page.plain("wind", [self.wind]);
        page.plain("record", [to_hex(&self.record)]);
        page.plain("refusal", [self.scored.refusal]);
        self.met().iter().for_each(|why| page.plain("why", [why]));
    }
}

/// The fields of a hand that has no notation.
fn fields(hand: &Hand) -> String {
    let numbers = |list: &[u8]| list.iter().map(u8::to_string).collect::<Vec<_>>().join(" ");
    let melds: Vec<String> = hand.melds().iter().map(|meld| format!(", meld {} {}", meld.kind, meld.tile)).collect();
    format!(
        "how {}, winner {}, discarder {}, riichi {}, situation {}, indicator {}, winning {}, m {}{}, concealed {}",
        hand.how,
        hand.winner,
        hand.discarder,
        hand.riichi,
        hand.situation,
        hand.indicator,
        hand.winning,
        hand.m,
        melds.concat(),
        numbers(hand.concealed())
    )
}

/// The pair and the groups of a reading; both empty but for a regular one.
pub fn parts(reading: &Reading) -> (String, Vec<String>) {
    match reading {
        Reading::Regular { pair, groups, .. } => (text(&[*pair; 2]), groups.iter().map(|group| text(&group.tiles())).collect()),
        _ => Default::default(),
    }
}

/// The shape of a reading in a word or two.
pub fn shape(reading: &Reading) -> &'static str {
    match reading {
        Reading::Regular { .. } => "regular",
        Reading::SevenPairs => "seven pairs",
        Reading::ThirteenOrphans => "thirteen orphans",
    }
}

/// A text for scripts, - where there is none.
pub fn or_none(text: String) -> String {
    if text.is_empty() {
        "-".into()
    } else {
        text
    }
}

/// A reading for scripts: shape, pair, groups, place.
pub fn columns(reading: &Reading) -> [String; 4] {
    let (pair, groups) = parts(reading);
    let place = match reading {
        Reading::Regular { place, .. } => place.to_string(),
        _ => String::new(),
    };
    [shape(reading).replace(' ', "-"), or_none(pair), or_none(groups.join(",")), or_none(place)]
}
