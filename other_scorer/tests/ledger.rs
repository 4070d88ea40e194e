//! The game against the ledger over random lists of entries (01, Ledger; 02, S-5 to S-8, S-10 and S-11).

#[path = "chance/cases.rs"]
mod cases;
mod chance;
#[path = "chance/positions.rs"]
mod positions;

use std::collections::BTreeMap;

use other_scorer::rng::Rng;
use other_scorer::{Entry, Game, Ledger, Position};

/// A ledger with the fields of a position and of an earlier one.
fn ledger(position: &Position, earlier: Option<Position>) -> Ledger {
    Ledger {
        scores: position.scores.map(i64::from),
        sticks: position.sticks as i64,
        declared: (0..4).filter(|&seat| position.declared[seat as usize]).collect(),
        dealer: position.dealer,
        wind: position.wind,
        hands: position.hands as u32,
        over: position.over,
        counter: position.counter as i64,
        pao: (0..4)
            .flat_map(|holder| [28, 29].map(|yaku| ((holder, yaku), position.feeder(holder, yaku))))
            .filter_map(|(key, seat)| Some((key, seat?)))
            .collect(),
        earlier: earlier.map(|earlier| Box::new(ledger(&earlier, None))),
    }
}

/// What the lists have reached.
#[derive(Default)]
struct Reached {
    entries: usize,
    numbers: [usize; 22],
    by_deal: usize,
    by_hands: usize,
    unready: [usize; 4],
    met: BTreeMap<&'static str, usize>,
}

impl Reached {
    /// The cases of pao, multiple rons, corrections and sticks that were met fewer times than this.
    fn short(&self, least: usize) -> Vec<&'static str> {
        cases::CASES.into_iter().filter(|case| self.met.get(case).is_none_or(|&count| count < least)).collect()
    }
}

/// The bookings of a list that are left standing, by the entries' numbers: a correction's result stands for the booking that it
/// supersedes (02, S-10).
fn standing(list: &[Entry], numbers: &[u8]) -> Vec<Entry> {
    let mut standing = Vec::new();
    for (entry, _) in list.iter().zip(numbers).filter(|(_, &number)| number == 0) {
        if let Entry::Correction(new) = entry {
            standing.pop();
            standing.push(new.as_ref().clone());
        } else {
            standing.push(entry.clone());
        }
    }
    standing
}

/// Books a random list on a game and on a ledger, comparing after each entry.
fn compare(rng: &mut Rng, start: Game, length: usize, keep: bool, reached: &mut Reached) {
    let (mut game, mut kept) = (start.clone(), ledger(start.now(), start.earlier()));
    let was_fresh = start == Game::fresh();
    let (mut list, mut numbers): (Vec<Entry>, Vec<u8>) = (Vec::new(), Vec::new());
    let mut track = cases::Track::default();
    for _ in 0..length {
        let entry = chance::entry(rng, &game, keep);
        let before = game.clone();
        let number = game.book(&entry);
        let (next, expected) = kept.after(&entry);
        assert_eq!(number, expected, "{entry:?} on {before:?}");
        assert_eq!(ledger(game.now(), game.earlier()), next, "{entry:?} on {before:?}");
        if number != 0 {
            assert_eq!(game, before);
        }
        if number == 0 || was_fresh {
            assert_eq!(game.now().total(), 120_000);
        }
        reached.entries += 1;
        reached.numbers[number as usize] += 1;
        track.met(&before, &entry, number).into_iter().for_each(|case| *reached.met.entry(case).or_default() += 1);
        if let (Entry::Draw(bits), 0) = (&entry, number) {
            let unready = before.now().unready(*bits).len();
            if unready > 0 {
                reached.unready[unready - 1] += 1;
            }
        }
        if game.now().over && !before.now().over {
            let which = if game.now().hands == 200 { &mut reached.by_hands } else { &mut reached.by_deal };
            *which += 1;
        }
        kept = next;
        list.push(entry);
        numbers.push(number);
    }
    // The bookings left standing, made again one after the other, are all accepted and give this position.
    let left = standing(&list, &numbers);
    assert_eq!(game.replayed(), Some(*game.now()));
    if start.earlier().is_none() {
        assert_eq!(game.standing(), left.iter().collect::<Vec<_>>());
    }
    if was_fresh {
        assert_eq!(Ledger::of(&list), (kept.clone(), numbers));
        assert_eq!(Ledger::of(&left), (kept, vec![0; left.len()]));
    }
}

#[test]
fn fresh_games() {
    let mut rng = Rng::new(21);
    let mut reached = Reached::default();
    while reached.entries < 200_000 {
        let keep = rng.percent(40);
        let length = if keep { 800 } else { 70 };
        compare(&mut rng, Game::fresh(), length, keep, &mut reached);
    }
    let missing: Vec<usize> = (0..22).filter(|&n| reached.numbers[n] == 0).collect();
    assert_eq!(missing, [12, 13, 14, 15, 16, 19], "refusals not reached");
    // Scores of a game are hundreds, and no game gets out of form.
    let never = [&["feeders out of form alone", "riichi refused: with 999"], &cases::LENT[..]].concat();
    assert_eq!(reached.short(3), never, "{:?}", reached.met);
    assert!(reached.unready.iter().all(|&count| count > 0), "{:?}", reached.unready);
    assert!(reached.by_deal > 100 && reached.by_hands > 20);
}

#[test]
fn games_of_any_value() {
    let mut rng = Rng::new(22);
    let mut reached = Reached::default();
    while reached.entries < 200_000 {
        let start = positions::game(&mut rng);
        let (length, keep) = (1 + rng.below(8), rng.percent(50));
        compare(&mut rng, start, length, keep, &mut reached);
    }
    assert!(reached.unready.iter().all(|&count| count > 10), "{:?}", reached.unready);
    assert!((0..12).chain([17, 18, 20, 21]).all(|n| reached.numbers[n] > 20) && reached.numbers[12] == 0, "{:?}", reached.numbers);
    assert_eq!(reached.short(20), [""; 0], "{:?}", reached.met);
    assert!(reached.by_deal > 100 && reached.by_hands > 100);
}
