//! An example log of one game: a correction of nothing, scenes that keep the deal, eight that pass it, the end, put right and made
//! again, and a cut entry.

mod correction;
pub mod scene;
pub mod script;
pub mod survey;

use crate::entry::Entry;
use crate::position::LAST_HAND;
use crate::rng::Rng;
use scene::{From, Scene};
use script::Script;

/// How the game of the log ends (01, The game).
#[derive(Clone, Copy, Debug, PartialEq, Eq)]
pub enum End {
    /// After South's seat 3.
    Deal,
    /// At 200 finished hands.
    Hands,
}

/// All scenes that keep the deal, in random order; the first time by rank, then without those that are played once, of pao, multiple rons
/// or corrections.
fn scenes(rng: &mut Rng, first: bool) -> Vec<Scene> {
    let mut all = Vec::new();
    all.extend((1..=36).filter(|&n| n != 27).map(Scene::Yaku));
    all.extend((0..=4).map(Scene::Melds));
    all.extend((0..=3).map(Scene::MeldKind));
    all.extend([(1, 4), (5, 5), (6, 7), (8, 10), (11, 99)].map(|(low, high)| Scene::Han(low, high)));
    all.extend((2..=7).map(Scene::Refused));
    all.extend((1..=4).map(Scene::Draw));
    all.extend((1..=4).map(Scene::Unready));
    all.extend((0..=4).flat_map(|n| [Scene::Chombo(n, true), Scene::Chombo(n, false)]));
    all.extend([Scene::Carried, Scene::Seat, Scene::Again]);
    all.extend([Scene::Undeclared, Scene::Silent, Scene::NoYaku, Scene::NoStick]);
    if first {
        let froms = [From::Wall, From::Feeder, From::Another];
        all.extend([28, 29].iter().flat_map(|&yaku| froms.map(|from| Scene::Pao(yaku, from))));
        all.extend([Scene::ThreeWinds, Scene::OtherHolder, Scene::OtherYaku, Scene::PaoTwice]);
        all.extend("WDUC".chars().map(Scene::Lapsed));
        all.extend((1..=3).map(Scene::MultiRon));
        all.extend((0..3).map(Scene::MultiRonPao));
        all.extend((0..6).map(Scene::MultiRonUnfit));
        all.extend([2, 3, 4, 5, 6, 7, 11].map(Scene::MultiRonRefused));
        all.extend(correction::PAIRS.map(|(old, new)| Scene::Corrected(old, new)));
        all.extend([Scene::CorrectedTwice, Scene::CorrectedLate, Scene::CorrectionRefused]);
    }
    rng.shuffle(&mut all);
    if first {
        all.push(Scene::LastStick);
        all.sort_by_key(Scene::rank);
    } else {
        all.retain(|scene| !scene.is_once());
    }
    all
}

/// The log of a seed, a few hundred entries.
pub fn example(seed: u64, end: End) -> Vec<u8> {
    let mut script = Script::new(seed);
    let mut rng = Rng::new(seed ^ 0x5EED);
    let twice = [scenes(&mut rng, true), scenes(&mut rng, false)].concat();
    let parts: Vec<&[Scene]> = twice.chunks(twice.len().div_ceil(8)).collect();
    script.add(Entry::Draw(15).as_correction());
    for (deal, part) in parts.into_iter().enumerate() {
        part.iter().for_each(|scene| scene.play(&mut script));
        if deal < 6 || deal < 7 && end == End::Deal {
            scene::pass(&mut script, deal);
        }
    }
    while end == End::Hands && script.position.hands < LAST_HAND - 1 {
        let count = rng.within(1, 4);
        let scene = rng.pick(&[Scene::Melds(0), Scene::Draw(count), Scene::Chombo(count, true)]);
        scene.play(&mut script);
    }
    scene::pass(&mut script, 7);
    correction::at_the_end(&mut script);
    scene::after_the_end(&mut script);
    script.log
}
