//! Takes each vector apart and counts what it covers.

mod hands;
mod refusals;

use crate::codec::read;
use crate::cover::Cover;
use crate::score::{best, valued};
use crate::vector::Vector;

#[derive(Default)]
pub struct Survey {
    cover: Cover,
    most_readings: usize,
    most_groupings: usize,
    most_places: usize,
}

impl Survey {
    /// A survey with everything that must be covered at zero.
    pub fn new() -> Survey {
        let mut survey = Survey::default();
        survey.cover.expect_numbers("yaku", 1, 36);
        survey.expect_refusals();
        survey.expect_hands();
        survey
    }

    /// Counts one vector.
    pub fn note(&mut self, vector: &Vector) {
        let scored = &vector.scored;
        for n in (1..=36).filter(|n| scored.yaku >> n & 1 == 1) {
            self.cover.add("yaku", n);
        }
        self.note_refusal(vector);
        if let (0 | 6 | 7, Ok(hand)) = (scored.refusal, read(&vector.record)) {
            self.note_sound(&hand);
            let all = valued(&hand, vector.dealer, vector.wind);
            self.note_readings(&all);
            if let Some(at) = best(&all) {
                self.note_accepted(vector, &hand, &all, at);
            }
        }
    }

    /// Prints all counts; true when every needed label reaches the floor.
    pub fn report(&self, floor: u64) -> bool {
        for line in self.cover.lines() {
            println!("{line}");
        }
        println!(
            "most readings {}, most groupings {}, most places of one grouping {}",
            self.most_readings, self.most_groupings, self.most_places
        );
        let short = self.cover.short(floor);
        if short.is_empty() {
            println!("coverage whole: every needed count is at least {floor}");
        } else {
            println!("coverage short, under {floor}: {}", short.join(", "));
        }
        short.is_empty()
    }
}
