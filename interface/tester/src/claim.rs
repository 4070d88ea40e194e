//! A claim in words: claim=regular pair=55s groups=123m,123m,789p,789p place=pair gain=5200, claim=pairs gain=1600, claim=orphans gain=32000.

use archive::same;
use other_scorer::claim::{group, Claim};
use other_scorer::notation::hex::from_hex;
use other_scorer::notation::tiles;
use other_scorer::reading::{Group, Reading};

use crate::both::Core;
use crate::names::count;
use crate::words::{Bad, Words};

/// A gain has 17 bits (02, S-13).
const MOST: u32 = (1 << 17) - 1;

/// What is said where claim= is neither bytes nor a shape.
const NEEDED: &str = "regular, pairs, orphans, or the claim's bytes in hexadecimal, is needed";

/// The words that stand beside a regular shape.
const REGULAR: &str = "such as claim=regular pair=55s groups=123m,123m,789p,789p place=pair gain=5200";

/// What claim= gives: bytes as they are, or the shape of a reading.
enum Typed {
    Bytes(Vec<u8>),
    Regular,
    Whole(Reading),
}

fn typed(value: &str) -> Result<Typed, String> {
    Ok(match value.to_ascii_lowercase().as_str() {
        "" => Typed::Bytes(Vec::new()),
        "regular" => Typed::Regular,
        "pairs" | "seven-pairs" => Typed::Whole(Reading::SevenPairs),
        "orphans" | "thirteen-orphans" => Typed::Whole(Reading::ThirteenOrphans),
        points if is_gain(points) => return Err(format!("the points are gain={points}; claim= is the reading: regular, pairs or orphans")),
        digits => Typed::Bytes(from_hex(digits).map_err(|_| NEEDED.to_string())?),
    })
}

/// Whether a value looks like points: up to five digits, hundreds.
fn is_gain(value: &str) -> bool {
    (3..=5).contains(&value.len()) && value.ends_with("00") && value.bytes().all(|sign| sign.is_ascii_digit())
}

/// The kind of two equal tiles.
fn pair(value: &str) -> Result<u8, String> {
    match tiles(value)?[..] {
        [one, other] if one == other => Ok(one),
        _ => Err("two equal tiles are needed, such as 55s".into()),
    }
}

/// A run or a triplet by its three tiles.
fn one_group(text: &str) -> Result<Group, String> {
    group_of(tiles(text)?, text)
}

/// The same by kinds, for which a text stands.
fn group_of(mut list: Vec<u8>, text: &str) -> Result<Group, String> {
    list.sort();
    let low = list.first().copied().unwrap_or(0);
    let named = [low, 34 + low].into_iter().filter_map(group).find(|group| group.tiles()[..] == list[..]);
    named.ok_or(format!("{text}: three neighbours of a suit or three equal tiles are needed, such as 123m or EEE"))
}

/// The groups as typed, with commas between them or three tiles after three; a hand whose melds are four has none.
fn groups(value: &str) -> Result<Vec<Group>, String> {
    let mut list = Vec::new();
    for text in value.split(',') {
        for three in tiles(text)?.chunks(3) {
            list.push(group_of(three.to_vec(), text)?);
        }
    }
    if list.len() > 4 {
        Err("at most four groups, melds left out".into())
    } else {
        Ok(list)
    }
}

/// What the winning tile completes: the pair, or a group by its number from 1 or its tiles.
fn place(value: &str, pair: Option<u8>, groups: &[Group]) -> Result<usize, String> {
    let group = || one_group(value).ok().and_then(|group| groups.iter().position(|typed| *typed == group)).map(|at| at + 1);
    let by_tiles = || if pair.is_some_and(|kind| tiles(value) == Ok(vec![kind; 2])) { Some(0) } else { group() };
    let by_number = || value.parse().ok().filter(|&number| number <= 7);
    let named = if value.eq_ignore_ascii_case("pair") { Some(0) } else { by_number().or_else(by_tiles) };
    named.ok_or(
        "the place, what the winning tile completes, is needed: pair, or one of the groups, such as 123m, or its number from 1".into(),
    )
}

/// A regular reading, its groups in the order of their codes; the place stays with its group.
fn regular(pair: u8, typed: Vec<Group>, place: usize) -> Reading {
    let mut order: Vec<usize> = (0..typed.len()).collect();
    order.sort_by_key(|&at| typed[at]);
    let moved = order.iter().position(|&at| at + 1 == place).map_or(place, |at| at + 1);
    Reading::Regular { pair, groups: order.into_iter().map(|at| typed[at]).collect(), place: moved }
}

/// The bytes that the core writes of a claim for a hand with m melds; none where it refuses.
pub fn written(core: &mut Core, claim: &Claim, m: u8) -> Vec<u8> {
    core.write_claim(&same::claim(claim, m)).1
}

/// A claim as it was typed: its bytes, or what it names.
pub enum Given {
    Bytes(Vec<u8>),
    Words(Claim),
}

impl Given {
    /// The bytes of a claim for a hand with m melds, if it has so many groups as are left to it. A hand that is not read has as many melds as groups
    /// are missing.
    pub fn bytes(self, core: &mut Core, m: Option<u8>) -> Result<Vec<u8>, Bad> {
        let claim = match self {
            Given::Bytes(bytes) => return Ok(bytes),
            Given::Words(claim) => claim,
        };
        let Reading::Regular { groups, place, .. } = &claim.reading else { return Ok(written(core, &claim, m.unwrap_or(0))) };
        if let Some(m) = m {
            let (given, needed) = (groups.len(), 4 - m as usize);
            if given != needed {
                return Err(Bad::new(format!(
                    "groups= has {}, with {} {needed} are needed",
                    count(given, "group"),
                    count(m.into(), "meld")
                )));
            }
        }
        if *place > groups.len() {
            return Err(Bad::new(format!("place={place}: the claim has {}, melds left out", count(groups.len(), "group"))));
        }
        Ok(written(core, &claim, m.unwrap_or(4 - groups.len() as u8)))
    }
}

/// The claim of the words; none if there is no claim=.
pub fn take(words: &mut Words) -> Result<Option<Given>, Bad> {
    words.join_digits("claim");
    let claim = words.take("claim", typed)?;
    let gain: Option<u32> = words.take("gain", |value| {
        let number = value.replace(',', "").parse().ok().filter(|gain| *gain <= MOST);
        number.ok_or(format!("what the winner gains is needed, a number up to {MOST}"))
    })?;
    let pair = words.take("pair", pair)?;
    let groups = words.take("groups", groups)?;
    let named = groups.clone().unwrap_or_default();
    let place = words.take("place", |value| place(value, pair, &named))?;
    let beside = gain.is_some() || pair.is_some() || groups.is_some() || place.is_some();
    let reading = match (claim, pair, groups, place) {
        (None, ..) if beside => return Err(Bad::new(format!("claim= is missing, {REGULAR}"))),
        (None, ..) => return Ok(None),
        (Some(Typed::Bytes(_)), ..) if beside => {
            return Err(Bad::new("claim=HEX has the whole claim: leave pair=, groups=, place= and gain= out"))
        }
        (Some(Typed::Bytes(bytes)), ..) => return Ok(Some(Given::Bytes(bytes))),
        (Some(Typed::Whole(reading)), None, None, None) => reading,
        (Some(Typed::Whole(_)), ..) => return Err(Bad::new("seven pairs and orphans have no pair=, groups= or place=, leave them out")),
        (Some(Typed::Regular), Some(pair), Some(groups), Some(place)) => regular(pair, groups, place),
        (Some(Typed::Regular), ..) => return Err(Bad::new(format!("pair=, groups= and place= are needed, {REGULAR}"))),
    };
    let Some(gain) = gain else { return Err(Bad::new("gain= is missing, what the winner is said to gain, such as gain=5200")) };
    Ok(Some(Given::Words(Claim { reading, gain })))
}
