//! A number in words, as people write it: 11,500 is "eleven thousand five hundred", 一万千五百, 만천오백 and 一万一千五百.
//! English names the largest amount first; the others give each decimal digit its unit and then leave out what is not said.

use super::Language;

/// The amounts that have a name in English.
const AMOUNTS: [(u32, &str); 31] = [
    (1_000_000_000, "billion"),
    (1_000_000, "million"),
    (1_000, "thousand"),
    (100, "hundred"),
    (90, "ninety"),
    (80, "eighty"),
    (70, "seventy"),
    (60, "sixty"),
    (50, "fifty"),
    (40, "forty"),
    (30, "thirty"),
    (20, "twenty"),
    (19, "nineteen"),
    (18, "eighteen"),
    (17, "seventeen"),
    (16, "sixteen"),
    (15, "fifteen"),
    (14, "fourteen"),
    (13, "thirteen"),
    (12, "twelve"),
    (11, "eleven"),
    (10, "ten"),
    (9, "nine"),
    (8, "eight"),
    (7, "seven"),
    (6, "six"),
    (5, "five"),
    (4, "four"),
    (3, "three"),
    (2, "two"),
    (1, "one"),
];

/// The English words: how many times the largest amount in it, from a hundred on, that amount, and what is left.
fn english(number: u32) -> Vec<&'static str> {
    let Some(&(amount, name)) = AMOUNTS.iter().find(|(amount, _)| *amount <= number) else { return Vec::new() };
    let times = if amount < 100 { Vec::new() } else { english(number / amount) };
    [times, vec![name], english(number % amount)].concat()
}

/// Four digits in numerals, each with its unit; a digit 0 is `zero`.
fn four(digits: &str, numerals: &str, units: [&str; 4], zero: &str) -> String {
    let numeral = |digit: char| numerals.chars().nth(digit as usize - '1' as usize).expect("a digit");
    let each = digits.chars().zip(units).map(|(digit, unit)| match digit {
        '0' => zero.to_string(),
        _ => format!("{}{unit}", numeral(digit)),
    });
    each.collect()
}

/// A number's groups of four digits, the highest first, each with its scale, the last with none.
fn groups(number: u32, scales: [&str; 2]) -> [(String, &str); 3] {
    let digits = format!("{number:012}");
    [(digits[..4].into(), scales[0]), (digits[4..8].into(), scales[1]), (digits[8..].into(), "")]
}

/// A text without the 1 before these units.
fn without_one(text: &str, one: char, units: &[&str]) -> String {
    units.iter().fold(text.into(), |text: String, unit| text.replace(&format!("{one}{unit}"), unit))
}

/// Kanji; 一 is not written before 千, 百 and 十, but 一千万 is.
fn japanese(number: u32) -> String {
    let each = groups(number, ["億", "万"]).map(|(digits, scale)| {
        match (four(&digits, "一二三四五六七八九", ["千", "百", "十", ""], "").as_str(), scale) {
            ("", _) => String::new(),
            ("一千", "億" | "万") => format!("一千{scale}"),
            (text, _) => without_one(text, '一', &["千", "百", "十"]) + scale,
        }
    });
    each.concat()
}

/// Hangul; 일 is not written before 천, 백 and 십, nor before 만 at the beginning.
fn korean(number: u32) -> String {
    let each = groups(number, ["억", "만"]).map(|(digits, scale)| {
        let text = four(&digits, "일이삼사오육칠팔구", ["천", "백", "십", ""], "");
        if text.is_empty() {
            text
        } else {
            without_one(&text, '일', &["천", "백", "십"]) + scale
        }
    });
    let text = each.concat();
    match text.strip_prefix("일만") {
        Some(rest) => format!("만{rest}"),
        None => text,
    }
}

/// Characters; zeros at the end of a group are not written, others as one 零; 两千, 两万 and 两亿; 十 at the beginning, 一十 elsewhere.
fn mandarin(number: u32) -> String {
    let each = groups(number, ["亿", "万"]).map(|(digits, scale)| {
        let text = four(&digits, "一二三四五六七八九", ["千", "百", "十", ""], "零").replace("二千", "两千");
        match (text.trim_end_matches('零'), scale) {
            ("", _) => "零".into(),
            ("零零零二", "亿" | "万") => format!("零两{scale}"),
            (text, _) => format!("{text}{scale}"),
        }
    });
    let mut text = each.concat();
    while text.contains("零零") {
        text = text.replace("零零", "零");
    }
    let text = text.trim_matches('零');
    match text.strip_prefix("一十") {
        Some(rest) => format!("十{rest}"),
        None => text.into(),
    }
}

/// A number in words.
pub fn spelled(language: Language, number: u32) -> String {
    match (language, number) {
        (Language::Japanese, 0) => "ゼロ".into(),
        (Language::English, 0) => "zero".into(),
        (Language::Korean, 0) => "영".into(),
        (Language::Mandarin, 0) => "零".into(),
        (Language::Japanese, _) => japanese(number),
        (Language::English, _) => english(number).join(" "),
        (Language::Korean, _) => korean(number),
        (Language::Mandarin, _) => mandarin(number),
    }
}
