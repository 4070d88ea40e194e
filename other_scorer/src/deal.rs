//! Turns a plan into a sound hand.

use crate::plan::Plan;
use crate::record::{Hand, ORDINARY, RON, TSUMO};
use crate::rng::Rng;
use crate::sound::refusal;
use crate::themes::THEMES;
use crate::tiles::dora_after;

/// A random indicator; half the time one whose dora is the given tile.
fn indicator(rng: &mut Rng, held: u8) -> u8 {
    let any = rng.within(0, 33);
    if rng.percent(50) {
        return any;
    }
    (0..34).find(|&kind| dora_after(kind) == held).unwrap_or(any)
}

/// A hand from a plan: random winning tile, seats, riichi, situation and indicator.
fn attempt(rng: &mut Rng, plan: &Plan) -> Hand {
    let mut tiles = plan.tiles.clone();
    let any = rng.below(tiles.len());
    let wished = tiles.iter().position(|&tile| Some(tile) == plan.winning);
    let winning = tiles.remove(wished.unwrap_or(any));
    tiles.sort();
    let how = plan.how.unwrap_or(rng.pick(&[TSUMO, RON]));
    let winner = rng.within(0, 3);
    let discarder = if how == RON { (winner + rng.within(1, 3)) % 4 } else { 0 };
    let ordinary = if rng.percent(75) { ORDINARY } else { rng.within(1, 4) };
    let mut held = plan.tiles.clone();
    held.extend(plan.melds.iter().map(|meld| meld.tile));
    let mut hand = Hand {
        how,
        winner,
        discarder,
        riichi: plan.riichi.unwrap_or(rng.pick(&[0, 0, 0, 0, 1, 1, 2])),
        situation: plan.situation.unwrap_or(ordinary),
        indicator: {
            let dora = rng.pick(&held);
            indicator(rng, dora)
        },
        winning,
        m: plan.melds.len() as u8,
        ..Hand::default()
    };
    hand.melds[..plan.melds.len()].copy_from_slice(&plan.melds);
    hand.concealed[..tiles.len()].copy_from_slice(&tiles);
    hand
}

/// A sound hand from a plan, or none if many attempts fail (01, Read).
pub fn deal(rng: &mut Rng, plan: &Plan) -> Option<Hand> {
    let fits = plan.melds.len() <= 4 && plan.tiles.len() == 14 - 3 * plan.melds.len();
    if !fits {
        return None;
    }
    (0..40).map(|_| attempt(rng, plan)).find(|hand| refusal(hand) == 0)
}

/// A sound hand of a random theme.
pub fn themed(rng: &mut Rng) -> Hand {
    loop {
        let plan = rng.pick(&THEMES)(rng);
        if let Some(hand) = deal(rng, &plan) {
            return hand;
        }
    }
}

/// A hand of a random theme as a ron of a seat on the tile that another hand takes (02, S-6).
pub fn on_tile_of(rng: &mut Rng, model: &Hand, winner: u8, riichi: u8) -> Option<Hand> {
    taking(Hand { winner, riichi, ..themed(rng) }, model)
}

/// A hand as a ron on the tile that another takes, with its discarder, indicator and situation; none if it has no such tile, or is
/// not sound then (02, S-6).
pub fn taking(mut hand: Hand, model: &Hand) -> Option<Hand> {
    if hand.winning != model.winning {
        let held = &mut hand.concealed[..13 - 3 * hand.m as usize];
        let at = held.iter().position(|&tile| tile == model.winning)?;
        held[at] = hand.winning;
        held.sort();
    }
    let &Hand { discarder, situation, indicator, winning, .. } = model;
    let hand = Hand { how: RON, discarder, situation, indicator, winning, ..hand };
    (refusal(&hand) == 0).then_some(hand)
}

/// A sound hand that is one tile away from a random theme's plan.
pub fn near(rng: &mut Rng) -> Hand {
    loop {
        let plan = rng.pick(&THEMES)(rng).spoiled(rng);
        if let Some(hand) = deal(rng, &plan) {
            return hand;
        }
    }
}

/// A sound hand of tiles drawn from a shuffled set, with melds of a random theme.
pub fn drawn(rng: &mut Rng) -> Hand {
    loop {
        let mut wall: Vec<u8> = (0..34).flat_map(|kind| [kind; 4]).collect();
        rng.shuffle(&mut wall);
        let mut plan = rng.pick(&THEMES)(rng);
        plan.tiles = wall[..14 - 3 * plan.melds.len()].to_vec();
        if let Some(hand) = deal(rng, &plan) {
            return hand;
        }
    }
}
