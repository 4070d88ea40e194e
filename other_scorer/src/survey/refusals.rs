//! Counts of refusals and of what causes them (01, Read; Score).

use super::Survey;
use crate::codec::{length_fault, unpack, LENGTH_FAULTS};
use crate::cover::Cover;
use crate::sound::{field_faults, five_of_a_kind, is_descending, situation_faults, FIELD_FAULTS, SITUATION_FAULTS};
use crate::vector::Vector;

const ORDER: [&str; 6] = ["2-not-3", "2-not-4", "2-not-5", "3-not-4", "3-not-5", "4-not-5"];

/// Counts a fault that is the only one.
fn alone(cover: &mut Cover, name: &str, labels: &[&str], faults: &[bool]) {
    let met: Vec<usize> = (0..faults.len()).filter(|&at| faults[at]).collect();
    if let [at] = met[..] {
        cover.add(name, labels[at]);
    }
}

impl Survey {
    /// Names the counts of this file.
    pub(super) fn expect_refusals(&mut self) {
        let cover = &mut self.cover;
        cover.expect_numbers("refusal", 0, 8);
        cover.expect("refusal 1 by", &LENGTH_FAULTS);
        cover.expect("refusal 2 by one fault", &FIELD_FAULTS);
        cover.expect("refusal 4 by", &["held", "indicator"]);
        cover.expect("refusal 5 by one fault", &SITUATION_FAULTS);
        cover.expect("two refusals met, first counts", &ORDER);
        cover.expect("refusal 8 by", &["dealer", "wind", "with-1-to-5-met"]);
        cover.expect_numbers("record length", 0, 16);
        cover.expect_numbers("dealer (4 is above 3)", 0, 4);
        cover.expect_numbers("wind (2 is above 1)", 0, 2);
    }

    /// Counts a vector's refusal, its cause, and the fields given beside the record.
    pub(super) fn note_refusal(&mut self, vector: &Vector) {
        let cover = &mut self.cover;
        cover.add("refusal", vector.scored.refusal);
        cover.add("record length", vector.record.len());
        cover.add("dealer (4 is above 3)", vector.dealer.min(4));
        cover.add("wind (2 is above 1)", vector.wind.min(2));
        match vector.scored.refusal {
            1 => {
                let fault = length_fault(&vector.record).expect("refusal 1");
                cover.add("refusal 1 by", LENGTH_FAULTS[fault]);
            }
            2..=5 => note_faults(cover, vector),
            8 => {
                cover.add_if(vector.dealer > 3, "refusal 8 by", "dealer");
                cover.add_if(vector.wind > 1, "refusal 8 by", "wind");
                let met = crate::read(&vector.record).is_err();
                cover.add_if(met, "refusal 8 by", "with-1-to-5-met");
            }
            _ => {}
        }
    }
}

/// Counts the faults of a record that meets refusal 2 to 5 (01, Read).
fn note_faults(cover: &mut Cover, vector: &Vector) {
    let Ok((hand, padding)) = unpack(&vector.record) else { return };
    let fields = [&field_faults(&hand)[..], &[padding]].concat();
    let situations = situation_faults(&hand);
    let held = hand.held();
    match vector.scored.refusal {
        2 => alone(cover, "refusal 2 by one fault", &FIELD_FAULTS, &fields),
        4 => {
            let five = held.iter().any(|a| held.iter().filter(|&b| a == b).count() > 4);
            cover.add("refusal 4 by", if five { "held" } else { "indicator" });
        }
        5 => alone(cover, "refusal 5 by one fault", &SITUATION_FAULTS, &situations),
        _ => {}
    }
    let later = [(3, is_descending(&hand)), (4, five_of_a_kind(&hand)), (5, situations.contains(&true))];
    for (number, met) in later {
        let refusal = vector.scored.refusal;
        let both = met && number > refusal;
        cover.add_if(both, "two refusals met, first counts", format!("{refusal}-not-{number}"));
    }
}
