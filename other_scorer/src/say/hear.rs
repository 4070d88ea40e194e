//! What a listener makes of the clips of a number: "A listener needs no grammar".

/// What a clip adds: "39 is 1,000, 40 is 10, 41 is 2"; none for a scale and for what is no number.
fn value(clip: u8) -> Option<u64> {
    let clip = clip as u64;
    match clip {
        0..=9 => Some(clip),
        10..=18 => Some(10 * (clip - 9)),
        19..=27 => Some(100 * (clip - 18)),
        28..=36 => Some(1_000 * (clip - 27)),
        39 => Some(1_000),
        40 => Some(10),
        41 => Some(2),
        42..=50 => Some(clip - 31),
        _ => None,
    }
}

/// What a scale multiplies by.
fn scale(clip: u8) -> Option<u64> {
    match clip {
        37 => Some(10_000),
        38 => Some(100_000_000),
        51 => Some(1_000),
        52 => Some(1_000_000),
        53 => Some(1_000_000_000),
        _ => None,
    }
}

/// The number heard: "a clip with a value .. is added to what has been heard since the last scale; a scale multiplies that (1 where nothing
/// was heard) and adds it to the whole". None where a clip is no part of a number, or there are none.
pub fn heard(clips: &[u8]) -> Option<u64> {
    let (mut whole, mut since) = (0, None);
    for &clip in clips {
        match (value(clip), scale(clip)) {
            (Some(value), _) => since = Some(since.unwrap_or(0) + value),
            (None, Some(scale)) => whole += since.take().unwrap_or(1) * scale,
            (None, None) => return None,
        }
    }
    (!clips.is_empty()).then(|| whole + since.unwrap_or(0))
}
