//! `tester COMMAND WORDS`: hands, readings, tables rotated, suits renamed, slips, unfinished hands, practice cards, claims, messages,
//! logs, games, damaged bytes and hands as far as they were keyed in, answered by the proved core and compared with the other scorer. Exit status 0: answered, refusals too;
//! 1: the two differ; 2: bad input, told in one line.

mod answer;
mod both;
mod cards;
mod changes;
mod claim;
mod clips;
mod csv;
mod damage;
mod draft;
mod form;
mod fu;
mod game;
mod hand;
mod help;
mod input;
mod judge;
mod limit;
mod log;
mod meant;
mod names;
mod outcome;
mod page;
mod payments;
mod progress;
mod readings;
mod ready;
mod refusals;
mod rename;
mod rotate;
mod say;
mod sheet;
mod sides;
mod slip;
mod tally;
mod target;
mod text;
mod unfinished;
mod waits;
mod walk;
mod wav;
mod words;

use std::io::{self, Write};
use std::process::ExitCode;

use both::Core;
use words::{Bad, Words};

/// A command: what it asks of the core, and the text it prints.
type Command = fn(&mut Core, Words) -> Result<String, Bad>;

/// The commands by name, with their help.
const COMMANDS: [(&str, Command, &str); 16] = [
    ("hand", hand::run, help::HAND),
    ("readings", readings::run, help::READINGS),
    ("rotate", rotate::run, help::ROTATE),
    ("rename", rename::run, help::RENAME),
    ("slip", slip::run, help::SLIP),
    ("waits", waits::run, help::WAITS),
    ("ready", ready::run, help::READY),
    ("cards", cards::run, help::CARDS),
    ("judge", judge::run, help::JUDGE),
    ("say", say::run, help::SAY),
    ("log", log::run, help::LOG),
    ("tally", tally::run, help::TALLY),
    ("damage", damage::run, help::DAMAGE),
    ("draft", draft::run, help::DRAFT),
    ("game", game::run, help::GAME),
    ("clips", clips::run, help::CLIPS),
];

/// The commands one after the other, a word before the last one.
fn names(last: &str) -> String {
    let all: Vec<&str> = COMMANDS.iter().map(|(name, ..)| *name).collect();
    format!("{} {last} {}", all[..all.len() - 1].join(", "), all[all.len() - 1])
}

/// Whether the words of a command name a file, whose name may have any signs.
fn names_file(command: &str, words: &Words) -> bool {
    let has = |word: &str| words.texts().contains(&word);
    matches!(command, "log" | "tally" | "game") || command == "say" && has("scores") || command == "damage" && has("log")
}

/// Runs the command that the first word names.
fn run(core: &mut Core, mut words: Words) -> Result<String, Bad> {
    let wants_help = words.take_flag("--help") | words.take_flag("-h") | words.take_flag("help");
    let Some(name) = words.take_first() else {
        return match wants_help {
            true => Ok(help::TOOL.into()),
            false => Err(Bad::new(format!("no command: {}; --help says more", names("or")))),
        };
    };
    match COMMANDS.iter().find(|(command, ..)| command.eq_ignore_ascii_case(&name)) {
        Some((.., help)) if wants_help => Ok(help.to_string()),
        Some((name, command, _)) => command(core, if names_file(name, &words) { words } else { words.spread() }),
        None => Err(Bad::new(format!("word 1, \"{name}\": no command; there are {}", names("and")))),
    }
}

/// Prints the answer, then what differs, loudly.
fn main() -> ExitCode {
    let mut core = Core::default();
    match run(&mut core, Words::of_command(std::env::args_os().skip(1))) {
        // A reader that has closed its end wants no more.
        Ok(text) => drop(io::stdout().write_all(text.as_bytes())),
        Err(bad) => {
            eprintln!("tester: {bad}");
            return ExitCode::from(2);
        }
    }
    let differences = &core.differences;
    if differences.count == 0 {
        return ExitCode::SUCCESS;
    }
    eprintln!("!!! THE TWO SCORERS DIFFER, {}", names::count(differences.count as usize, "time"));
    for difference in &differences.first {
        eprintln!("!!! {}", difference.replace('\n', "\n!!!"));
    }
    ExitCode::from(1)
}
