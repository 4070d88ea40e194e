//! `judge`: another scorer's claim for a hand, as the core judges it, in words.

use archive::Judged;
use other_scorer::claim::{parse, Claim, FAULTS, FAULTY};
use other_scorer::notation::hex::to_hex;
use other_scorer::notation::text;
use other_scorer::reading::Reading;
use other_scorer::Hand;

use crate::answer::{columns, parts, Answer};
use crate::both::Core;
use crate::claim;
use crate::hand::in_words;
use crate::names::{count, points};
use crate::page::Page;
use crate::refusals::sentence;
use crate::words::{Bad, Words};

/// The verdicts in words (02, S-13).
const VERDICTS: [&str; 5] = [
    "accepted",
    "1, its reading is not one of those tiles",
    "2, its reading has no yaku",
    "3, its reading does not pay that gain",
    "4, another reading with a yaku pays more",
];

/// Of a claim with the pair and the groups of a reading: what the winning tile completes in them, if the claim has another place.
fn wrong_place(answer: &Answer, hand: &Hand, claimed: &Reading) -> Option<String> {
    let Reading::Regular { place, .. } = claimed else { return None };
    let own = parts(claimed);
    let at = |listed: &Reading| match listed {
        Reading::Regular { place, .. } if parts(listed) == own => Some(*place),
        _ => None,
    };
    let right: Vec<usize> = answer.readings.iter().filter_map(|listed| at(&listed.reading)).collect();
    let all = [vec![own.0], own.1].concat();
    let named = |places: &[usize]| {
        let mut names: Vec<&str> = places.iter().filter_map(|&place| all.get(place)).map(String::as_str).collect();
        names.dedup();
        names.join(" or ")
    };
    let is_wrong = !right.is_empty() && !right.contains(place);
    is_wrong.then(|| format!("the place is wrong, {} completes {} and not {}", text(&[hand.winning]), named(&right), named(&[*place])))
}

/// The verdict or the refusal in words, with what is at fault.
fn told(judged: &Judged, fault: Option<String>) -> String {
    let fault: Vec<String> = fault.into_iter().collect();
    match (judged.refusal, VERDICTS.get(judged.verdict as usize)) {
        (0, Some(verdict)) => [vec![verdict.to_string()], fault].concat().join(": "),
        (0, None) => "no verdict of document 02".into(),
        (refusal, _) => sentence(refusal, &fault),
    }
}

/// The verdict on a claim, or why it is refused.
pub fn run(core: &mut Core, mut words: Words) -> Result<String, Bad> {
    let plain = words.take_flag("--plain");
    let typed = claim::take(&mut words)?;
    let answer = Answer::of(core, words)?;
    let m = answer.hand().map(|hand| hand.m);
    let typed = typed.map(|claim| claim.bytes(core, m)).transpose()?;
    let own = answer.reported().map(|reported| Claim { reading: reported.reading.clone(), gain: reported.worth.gain });
    let Some(claim) = typed.or_else(|| own.map(|claim| claim::written(core, &claim, m.unwrap_or(0)))) else {
        return Err(Bad::new(
            "no reading of the hand is reported, so claim= is needed: in words, such as claim=pairs gain=1600, or claim=HEX",
        ));
    };
    let judged = core.judge(&answer.record, &claim, answer.dealer, answer.wind);
    let named = answer.sound().map(|hand| parse(&claim, hand.m));
    let fault = named.clone().and_then(Result::err).filter(|_| judged.refusal == FAULTY).map(|fault| FAULTS[fault]);
    let named = named.and_then(Result::ok);
    let misplaced = match (answer.sound(), &named, judged.refusal, judged.verdict) {
        (Some(hand), Some(claim), 0, 1) => wrong_place(&answer, hand, &claim.reading),
        _ => None,
    };
    let fault = fault.map(String::from).or(misplaced);

    let mut page = Page::default();
    if plain {
        answer.plain_head(&mut page);
        page.plain("claim", [to_hex(&claim)]);
        if let Some(Claim { reading, gain }) = &named {
            page.plain("reading", columns(reading));
            page.plain("gain", [gain]);
        }
        page.plain("judged", [judged.refusal, judged.verdict]);
        fault.iter().for_each(|fault| page.plain("fault", [fault]));
        page.plain("differences", [core.differences.count]);
        return Ok(page.finish());
    }
    answer.head(&mut page);
    page.line("");
    page.row("claim", format!("{}, {}", to_hex(&claim), count(claim.len(), "byte")));
    if let (Some(hand), Some(Claim { reading, gain })) = (answer.sound(), &named) {
        page.row("claimed", in_words(hand, reading));
        page.row("its gain", points(*gain as i64));
    }
    page.row("judged", told(&judged, fault));
    page.line("");
    page.line(core.verdict());
    Ok(page.finish())
}
