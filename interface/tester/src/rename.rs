//! `rename`: a hand with its suits renamed, beside the hand as typed.

use archive::same;
use other_scorer::rotate::{is_green, renamed, Suits};

use crate::answer::Answer;
use crate::both::Core;
use crate::sides::{alone, answer, Sides};
use crate::words::{Bad, Words};

/// The letters of the suits.
const LETTERS: [char; 3] = ['m', 'p', 's'];

/// The suits that m, p and s become, by three letters.
fn suits(value: &str) -> Result<Suits, String> {
    let value = value.replace(',', "");
    let suit = |letter: char| LETTERS.iter().position(|&one| one == letter.to_ascii_lowercase());
    let list: Vec<usize> = value.chars().filter_map(suit).collect();
    let each_once = (0..3).all(|suit| list.contains(&suit));
    match list[..] {
        [m, p, s] if each_once && value.chars().count() == 3 => Ok([m, p, s].map(|suit| suit as u8)),
        _ => Err("what m, p and s become is needed, such as psm".into()),
    }
}

/// The suits renamed, both scores, and whether they are the same but for an all green hand (02, S-12).
pub fn run(core: &mut Core, mut words: Words) -> Result<String, Bad> {
    let plain = words.take_flag("--plain");
    let suits = words.take("suits", suits)?;
    let missing = words.bad(words.texts().len(), "what the suits become is missing, such as suits=psm");
    let suits = suits.ok_or(missing)?;
    let first = Answer::of(core, words)?;
    let Some(hand) = first.sound() else {
        return Ok(alone(core, &first, plain, "a hand that is refused so is not renamed"));
    };
    let other = renamed(hand, suits);
    let (m, green) = (hand.m, [is_green(hand), is_green(&other)]);
    let second = answer(core, &other, first.dealer, first.wind);
    let promise = match green {
        [false, false] => {
            let (got, wanted) = (same::kept(&second.scored, m), same::kept(&first.scored, m));
            match core.promised("Score of the renamed hand", got, wanted, &first) {
                true => "refusal, h, fu, yaku and changes are as they were",
                false => "NOT AS PROMISED: refusal, h, fu, yaku and changes as they were",
            }
        }
        [true, true] => "all green before and after: nothing is promised",
        [true, false] => "all green before: nothing is promised",
        [false, true] => "all green after: nothing is promised",
    };
    let letters: String = suits.iter().map(|&suit| LETTERS[suit as usize]).collect();
    let sides = Sides { first, second, title: title(&letters), key: ("renamed", letters) };
    Ok(sides.page(core, plain, promise))
}

/// The suits that get another name.
fn title(letters: &str) -> String {
    let pairs = LETTERS.into_iter().zip(letters.chars()).filter(|(from, to)| from != to);
    let words: Vec<String> = pairs.map(|(from, to)| format!("{from} to {to}")).collect();
    if words.is_empty() {
        "no suit renamed".into()
    } else {
        format!("renamed {}", words.join(", "))
    }
}
