//! Tiles as text: digits, then m, p or s, or z for honours 1 to 7; or a letter for an honour (01, Tiles and the hand record). Lower
//! case, 東南西北白發中, the tiles of Unicode, full-width signs and commas between tiles are read too.

use crate::tiles::{is_honour, EAST};

const SUITS: [char; 4] = ['m', 'p', 's', 'z'];

/// East South West North, white hatsu chun.
const HONOURS: [char; 7] = ['E', 'S', 'W', 'N', 'P', 'F', 'C'];

/// The same in lower case; p and s are suits, where digits or a suit stand before them.
const SMALL: [char; 7] = ['e', 's', 'w', 'n', 'p', 'f', 'c'];

/// The same as they stand on the tiles; 発 for 發 too.
const SIGNS: [char; 7] = ['東', '南', '西', '北', '白', '發', '中'];

/// A full-width sign as the plain one.
pub fn plain(sign: char) -> char {
    match sign {
        '\u{ff01}'..='\u{ff5e}' => char::from_u32(sign as u32 - 0xfee0).unwrap_or(sign),
        '発' => '發',
        _ => sign,
    }
}

/// The kind of a tile of Unicode, U+1F000 to U+1F021: winds, chun, hatsu, white, man, sou, pin.
fn unicode(sign: char) -> Option<u8> {
    let at = (sign as u32).checked_sub(0x1f000).filter(|&at| at < 34)? as u8;
    Some(match at {
        0..4 => EAST + at,
        4..7 => EAST + 10 - at,
        7..16 => at - 7,
        16..25 => at - 16 + 18,
        _ => at - 25 + 9,
    })
}

/// The kind of a sign that is a tile by itself; `free`: no digit and no suit stand before it.
fn alone(sign: char, free: bool) -> Option<u8> {
    let place = |list: &[char; 7]| list.iter().position(|&letter| letter == sign);
    let small = place(&SMALL).filter(|_| free || !SUITS.contains(&sign));
    let honour = place(&HONOURS).or(place(&SIGNS)).or(small);
    honour.map(|honour| EAST + honour as u8).or(unicode(sign))
}

/// The kinds named by a text such as "123m99pEE"; the error says which sign is wrong.
pub fn tiles(text: &str) -> Result<Vec<u8>, String> {
    let mut kinds = Vec::new();
    let mut digits: Vec<char> = Vec::new();
    let mut free = true;
    // A tile of Unicode may have a sign behind it that says how it is drawn.
    let signs = text.chars().filter(|sign| !matches!(sign, '\u{fe0e}' | '\u{fe0f}')).map(plain);
    for (at, sign) in signs.enumerate() {
        let wrong = |why: &str| Err(format!("sign {} of \"{text}\", {sign}: {why}", at + 1));
        if ('1'..='9').contains(&sign) {
            digits.push(sign);
        } else if let Some(kind) = alone(sign, free && digits.is_empty()) {
            if !digits.is_empty() {
                return wrong("the digits before it have no suit m, p, s or z, a small letter");
            }
            kinds.push(kind);
            free = true;
        } else if let Some(suit) = SUITS.iter().position(|&letter| letter == sign) {
            if digits.is_empty() {
                return wrong("no digit before it; South is S, white is P");
            }
            if let (3, Some(digit)) = (suit, digits.iter().find(|&&digit| digit > '7')) {
                return wrong(&format!("{digit}z is no tile, honours are 1z to 7z"));
            }
            kinds.extend(digits.drain(..).map(|digit| 9 * suit as u8 + (digit as u8 - b'1')));
            free = false;
        } else if matches!(sign, ',' | '、') {
            if !digits.is_empty() {
                return wrong("the digits before it have no suit m, p, s or z");
            }
            free = true;
        } else if sign == '0' {
            return wrong("there are no red fives here, write 5");
        } else if matches!(sign, 'M' | 'Z') {
            return wrong("a suit is a small letter, m p s or z");
        } else {
            return wrong("a digit 1 to 9, a suit m p s z or an honour E S W N P F C is needed");
        }
    }
    match digits.is_empty() {
        true => Ok(kinds),
        false => Err(format!("the last digits of \"{text}\" have no suit m, p, s or z")),
    }
}

/// Digits before one suit letter that look like those of two suits: they go down somewhere. Gives the stretch with its letter, and the
/// digits before the first descent.
pub fn doubtful(text: &str) -> Option<(String, String)> {
    let signs: Vec<char> = text.chars().map(plain).collect();
    let stretches = signs.split_inclusive(|sign| !sign.is_ascii_digit());
    stretches.filter(|stretch| stretch.last().is_some_and(|sign| SUITS.contains(sign))).find_map(|stretch| {
        let digits = &stretch[..stretch.len() - 1];
        let descent = digits.windows(2).position(|two| two[0] > two[1])?;
        Some((stretch.iter().collect(), digits[..=descent].iter().collect()))
    })
}

/// The text of kinds 0 to 33: a suit letter after each stretch of one suit, a letter for each honour.
pub fn text(kinds: &[u8]) -> String {
    let mut text = String::new();
    for (at, &kind) in kinds.iter().enumerate() {
        if is_honour(kind) {
            text.push(HONOURS[(kind - EAST) as usize]);
            continue;
        }
        text.push((b'1' + kind % 9) as char);
        if kinds.get(at + 1).is_none_or(|next| next / 9 != kind / 9) {
            text.push(SUITS[(kind / 9) as usize]);
        }
    }
    text
}
