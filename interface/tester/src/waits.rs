//! `waits`: what an unfinished hand waits for, and whether it is in furiten.

use archive::Scored;
use other_scorer::codec::{pack as pack_record, unpack as unpack_record};
use other_scorer::notation::{one, seat, text};
use other_scorer::record::{LAST_TILE, ORDINARY, RON, TSUMO};
use other_scorer::unfinished::Unfinished;
use other_scorer::Hand;

use crate::both::Core;
use crate::input;
use crate::names::{points, wind, FIRST_YAKUMAN};
use crate::page::{table, Page};
use crate::refusals::sentence;
use crate::unfinished::{discards, kinds, record, Asked};
use crate::words::{Bad, Words};

/// The indicator when none is given: North.
pub const NORTH: u8 = 30;

/// A player who may win with the hand: what a record says besides the tiles, the indicator if one is named, and the table.
struct Player {
    hand: Hand,
    named: Option<u8>,
    dealer: u8,
    wind: u8,
}

impl Player {
    /// The player of the words seat=, dealer=, wind=, indicator=, riichi, double and last; without seat= the winner of a record. None
    /// without both.
    fn of(words: &mut Words, record: Option<&[u8]>) -> Result<Option<Player>, Bad> {
        let named;
        let hand = match (words.take("seat", seat)?, record) {
            (Some(winner), _) => {
                named = words.take("indicator", one)?;
                let indicator = named.unwrap_or(NORTH);
                let riichi = if words.take_flag("double") { 2 } else { words.take_flag("riichi") as u8 };
                let situation = if words.take_flag("last") { LAST_TILE } else { ORDINARY };
                Hand { winner, riichi, situation, indicator, ..Hand::default() }
            }
            (None, Some(record)) => {
                let fields = unpack_record(record).map_or(Hand::default(), |(hand, _)| hand);
                let Hand { winner, riichi, situation, indicator, .. } = fields;
                let situation = if situation == LAST_TILE { LAST_TILE } else { ORDINARY };
                named = Some(indicator);
                Hand { winner, riichi, situation, indicator, ..Hand::default() }
            }
            (None, None) => return without_seat(words).map(|_| None),
        };
        let (dealer, wind) = input::table(words)?;
        Ok(Some(Player { hand, named, dealer, wind }))
    }

    /// The player as words.
    fn told(&self) -> String {
        let Hand { winner, riichi, situation, indicator, .. } = self.hand;
        let more = [["", " riichi", " double"][riichi.min(2) as usize], if situation == LAST_TILE { " last" } else { "" }].concat();
        let wind = if self.wind < 2 { wind(self.wind) } else { self.wind.to_string() };
        format!("seat={winner}{more} indicator={} dealer={} wind={wind}", text(&[indicator]), self.dealer)
    }
}

/// Refuses words about a player where nobody has said who it is.
fn without_seat(words: &Words) -> Result<(), Bad> {
    let is_of_player = |word: &&str| match word.to_ascii_lowercase().split_once('=') {
        Some((key, _)) => ["dealer", "wind", "indicator"].contains(&key),
        None => ["riichi", "double", "last"].contains(&word.to_ascii_lowercase().as_str()),
    };
    let finished = words.texts().iter().any(|word| word.contains('+'));
    match words.texts().iter().position(is_of_player).filter(|_| !finished) {
        Some(at) => Err(words.bad(at, "whose hand it is, is missing: write seat= too, such as seat=1")),
        None => Ok(()),
    }
}

/// What the core scores for the hand finished by a kind, by tsumo or by the next seat's discard; whose discard it is alters no gain.
fn finished(core: &mut Core, player: &Player, hand: &Unfinished, winning: u8, how: u8) -> Scored {
    let discarder = if how == RON { (player.hand.winner + 1) % 4 } else { 0 };
    let Unfinished { m, melds, concealed } = *hand;
    core.score(&pack_record(&Hand { how, discarder, winning, m, melds, concealed, ..player.hand }), player.dealer, player.wind)
}

/// h, fu and gain of a score, or why there is none.
fn worth(scored: &Scored, winner: u8) -> String {
    let gain = points(scored.changes[winner as usize].into());
    match (scored.refusal, scored.yaku.numbers().last()) {
        (0, Some(&(FIRST_YAKUMAN..))) => format!("yakuman, {gain}"),
        (0, _) => format!("h {}, fu {}, {gain}", scored.h, scored.fu),
        (7, _) => "no yaku".into(),
        (number, _) => sentence(number, &[]),
    }
}

/// What the words ask: the hand with its discards, its waits, and the player.
struct Question {
    asked: Asked,
    discards: Vec<u8>,
    waits: Vec<u8>,
    furiten: u8,
    player: Option<Player>,
}

impl Question {
    /// Puts the words to the core; a record that is refused has no hand to ask about.
    fn of(core: &mut Core, words: &mut Words) -> Result<Question, Bad> {
        let goes_on = words.goes_on("discards");
        let discards = discards(words)?;
        let record = record(words)?;
        let player = Player::of(words, record.as_deref())?;
        let mut asked = Asked::of(core, words, record).map_err(|bad| bad.and(goes_on))?;
        asked.discards = Some(discards.clone());
        if asked.is_refused() {
            return Ok(Question { asked, discards, waits: Vec::new(), furiten: 0, player: None });
        }
        let answer = core.waits(&asked.bytes, &discards);
        asked.refusal = answer.refusal;
        let question = Question { asked, discards, waits: answer.waits.list(), furiten: answer.furiten, player };
        match question.fifth() {
            Some(why) => Err(Bad::new(why)),
            None => Ok(question),
        }
    }

    /// How many of a kind the hand, the discards and the named indicator show.
    fn seen(&self, hand: &Unfinished, kind: u8) -> usize {
        let named = self.player.iter().filter_map(|player| player.named);
        hand.times(kind) + self.discards.iter().copied().chain(named).filter(|&tile| tile == kind).count()
    }

    /// That the named indicator is a fifth of its kind.
    fn fifth(&self) -> Option<String> {
        let named = self.player.as_ref()?.named?;
        let seen = self.seen(&self.asked.hand()?, named);
        (seen > 4).then(|| format!("{seen} of {} among hand, discards and indicator, and there are four", text(&[named])))
    }

    /// The discards that are waits.
    fn furiten(&self) -> String {
        let mut by: Vec<u8> = self.discards.iter().copied().filter(|kind| self.waits.contains(kind)).collect();
        by.sort();
        by.dedup();
        if self.furiten == 0 {
            "no".into()
        } else {
            format!("yes, by {}", text(&by))
        }
    }

    /// Of each wait the kind, how many of four neither the hand, the discards nor the indicator show, and by ron and by tsumo what it would score, if
    /// there is a player.
    fn rows(&self, core: &mut Core) -> Vec<Vec<String>> {
        let Some(hand) = self.asked.hand() else { return Vec::new() };
        let row = |&kind: &u8| {
            let mut cells = vec![text(&[kind]), 4usize.saturating_sub(self.seen(&hand, kind)).to_string()];
            if let Some(player) = &self.player {
                cells.extend([RON, TSUMO].map(|how| worth(&finished(core, player, &hand, kind, how), player.hand.winner)));
            }
            cells
        };
        self.waits.iter().map(row).collect()
    }
}

/// For scripts, of each wait by ron and by tsumo what it would score: refusal, h, fu and gain; nothing without a player.
pub fn plain_scores(core: &mut Core, page: &mut Page, mut words: Words) -> Result<(), Bad> {
    let Question { asked, waits, player, .. } = Question::of(core, &mut words)?;
    let (Some(player), Some(hand)) = (player, asked.hand()) else { return Ok(()) };
    for kind in waits {
        for (name, how) in [("ron", RON), ("tsumo", TSUMO)] {
            let scored = finished(core, &player, &hand, kind, how);
            let figures = [scored.refusal.into(), scored.h.into(), scored.fu.into(), scored.changes[player.hand.winner as usize]];
            page.plain("score", [text(&[kind]), name.into()].into_iter().chain(figures.map(|figure| figure.to_string())));
        }
    }
    Ok(())
}

/// The waits and furiten, or why there is no answer.
pub fn run(core: &mut Core, mut words: Words) -> Result<String, Bad> {
    let plain = words.take_flag("--plain");
    let question = Question::of(core, &mut words)?;
    let rows = question.rows(core);
    let Question { asked, waits, furiten, player, .. } = &question;
    let mut page = Page::default();
    if plain {
        asked.plain_head(&mut page);
        page.plain("waits", (!waits.is_empty()).then(|| text(waits)));
        page.plain("furiten", [furiten]);
        rows.iter().for_each(|cells| page.plain("wait", [cells.join("; ")]));
        page.plain("differences", [core.differences.count]);
        return Ok(page.finish());
    }
    asked.head(&mut page);
    if asked.refusal == 0 {
        page.row("waits", kinds(waits));
        page.row("furiten", question.furiten());
        player.iter().filter(|_| asked.has_record()).for_each(|player| page.row("player", player.told()));
    }
    if !rows.is_empty() {
        page.line("");
        let heads = ["wait", "left", "by ron", "by tsumo"][..rows[0].len()].iter().map(|head| head.to_string()).collect();
        let all: Vec<Vec<String>> = [heads].into_iter().chain(rows).collect();
        table(&all, &[1]).iter().for_each(|line| page.line(line));
    }
    page.line("");
    page.line(core.verdict());
    Ok(page.finish())
}
