//! Unfinished hands, sound, damaged and any bytes, through Ready (02, S-14).

use archive::same;
use other_scorer::notation::hex::to_hex as hex;
use other_scorer::rng::Rng;

use crate::report::Report;
use crate::said;
use crate::waits::bytes;

/// Compares Ready for one hand: the number, and that the hand given is one that many swaps away; and its message.
pub fn compare(report: &mut Report, rng: &mut Rng) {
    let bytes = bytes(rng);
    let got = archive::ready(&bytes);
    let wanted = same::ready(&bytes, &got);
    report.count("Ready by refusal", wanted.refusal);
    if wanted.refusal == 0 {
        report.count("Ready by swaps", wanted.swaps);
    }
    report.same("Ready", got, wanted, || hex(&bytes));
    said::of_ready(report, rng, &bytes);
}
