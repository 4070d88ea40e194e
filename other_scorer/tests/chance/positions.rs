//! Random positions and games for the tests.

use other_scorer::position::FLOOR;
use other_scorer::rng::Rng;
use other_scorer::{Game, Position};

/// A score from the floor up, often at one of a few values.
fn score(rng: &mut Rng) -> i64 {
    match rng.below(6) {
        0 => FLOOR as i64,
        1 => FLOOR as i64 + rng.below(60_000) as i64,
        2 => 30_000,
        3 => rng.pick(&[999, 1000]),
        4 => rng.below(2000) as i64,
        _ => FLOOR as i64 + rng.below(114_280_001) as i64,
    }
}

/// Feeders of any holders but themselves, mostly none.
fn feeders(rng: &mut Rng) -> [u8; 8] {
    let some = if rng.percent(40) { 40 } else { 0 };
    [0, 1, 2, 3, 0, 1, 2, 3].map(|holder| if rng.percent(some) { (holder + rng.within(1, 3)) % 4 + 1 } else { 0 })
}

/// A random position in form, any of its fields at their ends now and then.
pub fn in_form(rng: &mut Rng) -> Position {
    loop {
        let mut position = Position::fresh();
        position.sticks = rng.pick(&[0, 1, 4, 5, 114_000]);
        for seat in 0..4 {
            position.declared[seat] = position.sticks > seat as u32 && rng.percent(30);
        }
        position.dealer = rng.within(0, 3);
        position.wind = rng.within(0, 1);
        let any = rng.within(0, 200);
        position.hands = rng.pick(&[0, 198, 199, 200, any]);
        position.over = rng.percent(3);
        let some = rng.within(0, position.hands);
        position.counter = rng.pick(&[0, some, position.hands]) as u32;
        position.feeders = feeders(rng);
        let seats = [score(rng), score(rng), score(rng)];
        let last = 120_000 - 1000 * position.sticks as i64 - seats.iter().sum::<i64>();
        if last >= FLOOR as i64 {
            position.scores = [seats[0] as i32, seats[1] as i32, seats[2] as i32, last as i32];
            position.scores.rotate_left(rng.below(4));
            return position;
        }
    }
}

/// A position with one field in random disorder.
pub fn disturbed(rng: &mut Rng) -> Position {
    let mut position = in_form(rng);
    let seat = rng.below(4);
    match rng.below(9) {
        0 => position.dealer = rng.within(4, 255),
        1 => position.wind = rng.within(2, 255),
        2 => position.hands = rng.within(200, 255),
        3 => position.scores[seat] = position.scores[seat].wrapping_add(rng.within(1, 255) as i32),
        4 => position.sticks = position.sticks.wrapping_add(rng.pick(&[1, u32::MAX])),
        5 => position.declared = [true; 4],
        6 => {
            let place = seat + rng.pick(&[0, 4]);
            position.feeders[place] = rng.pick(&[5, 6, 255, seat as u8 + 1, seat as u8 + 1]);
        }
        7 => position.counter = rng.pick(&[position.hands as u32 + 1, 256, u32::MAX]),
        _ => {
            position.scores = [(); 4].map(|_| rng.pick(&[i32::MIN, i32::MAX, FLOOR - 1, FLOOR + 1]));
            position.sticks = rng.pick(&[0, u32::MAX]);
        }
    }
    position
}

/// A position in form mostly, else disturbed.
pub fn any(rng: &mut Rng) -> Position {
    if rng.percent(80) {
        in_form(rng)
    } else {
        disturbed(rng)
    }
}

/// A game with any such position; half of them with an earlier one, any too, now and then out of form or over (02, S-10).
#[allow(dead_code)]
pub fn game(rng: &mut Rng) -> Game {
    let earlier = rng.percent(50).then(|| any(rng));
    Game::lent(any(rng), earlier)
}
