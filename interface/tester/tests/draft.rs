//! `draft`, `game` and `clips`: what the desk handset asks for.

mod run;

use run::{answer, root, run_in};

const LINE_5: &str = "112233m778899p5s+5s seat=1 ron=3 indicator=N dealer=0 wind=0";

/// The texts of a key among lines.
fn texts<'a>(lines: &'a str, key: &str) -> Vec<&'a str> {
    lines
        .lines()
        .filter_map(|line| line.split_once(' ').or(Some((line, ""))))
        .filter(|(name, _)| *name == key)
        .map(|(_, text)| text)
        .collect()
}

/// The lines behind `answer NAME`, up to the next one.
fn part(lines: &str, name: &str) -> String {
    let start = lines.split(&format!("answer {name}\n")).nth(1).unwrap_or_else(|| panic!("{name} in {lines}"));
    start.split("\nanswer ").next().expect("a part").trim_end().to_string() + "\n"
}

#[test]
fn a_hand_tile_by_tile() {
    for (words, next) in [
        ("", "tiles 13"),
        ("E", "tiles 12"),
        ("112233m778899p", "tiles 1"),
        ("112233m778899p5s", "winning"),
        ("112233m778899p+5s", "tiles 1"),
        ("112233m778899p55s", "seat"),
        ("112233m778899p5s5s seat=1", "how"),
        ("112233m778899p5s+5s seat=1 ron=3", "nothing"),
        ("112233m778899p555s", "over 1"),
        ("chi=2m", "tiles 10"),
        ("1m pon=E pon=S pon=W ankan=N indicator=1p", "winning"),
    ] {
        let lines = answer(&format!("draft {words}"));
        assert_eq!(texts(&lines, "next"), [next], "{words}");
    }
}

#[test]
fn no_fifth_of_a_kind_can_be_pressed() {
    let key = |words: &str, name: &str| {
        let lines = answer(&format!("draft {words}"));
        let all: Vec<String> = texts(&lines, "key").into_iter().map(String::from).collect();
        all.iter().find_map(|line| line.strip_prefix(&format!("{name} "))).unwrap_or_default().to_string()
    };
    assert_eq!(key("1111m", "tile"), "23456789m123456789p123456789sESWNPFC");
    assert_eq!(key("NNN", "tile"), "123456789m123456789p123456789sESWPFC");
    assert_eq!(key("kan=5p", "tile"), "123456789m12346789p123456789sESWNPFC");
    assert_eq!(key("1111m", "chi"), "234567m1234567p1234567s");
    assert_eq!(key("NN", "pon"), "123456789m123456789p123456789sESWPFC");
    assert_eq!(key("1m", "kan"), "23456789m123456789p123456789sESWPFC");
    assert_eq!(key("112233m778899p55s", "tile"), "");
    assert_eq!(key("112233m778899p5s", "chi"), "");
    assert_eq!(key("1111m", "indicator"), "23456789m123456789p123456789sESWNPFC");
    assert_eq!(key("11m discards=11m", "tile"), "23456789m123456789p123456789sESWNPFC");
}

#[test]
fn a_finished_hand_has_the_lines_of_the_commands() {
    let lines = answer("draft 112233m778899p55s seat=1 ron=3 language=2");
    let without =
        |text: String| text.lines().filter(|line| !line.starts_with("differences")).map(|line| format!("{line}\n")).collect::<String>();
    let hand = without(answer(&format!("hand {LINE_5} --plain")));
    let more =
        "pair 55s\ngroup concealed run 123m\ngroup concealed run 123m\ngroup concealed run 789p\ngroup concealed run 789p\nwait pair\n";
    assert_eq!(part(&lines, "hand"), hand + more);
    for (name, command) in [("readings", "readings"), ("slip", "slip")] {
        assert_eq!(without(part(&lines, name)), without(answer(&format!("{command} {LINE_5} --plain"))), "{name}");
    }
    assert_eq!(without(part(&lines, "say")), without(answer(&format!("say {LINE_5} language=2 --plain"))));
    assert_eq!(without(part(&lines, "say-fu")), without(answer(&format!("say {LINE_5} --fu language=2 --plain"))));
    assert!(lines.ends_with("\ndifferences 0\n"), "{lines}");
    let refused = answer("draft 1111m44m77m22p55p8p8p seat=1 ron=3 language=1");
    assert_eq!(without(part(&refused, "say")), without(answer("say refusal 6 language=1 --plain")));
}

#[test]
fn an_unfinished_hand_has_waits_and_swaps() {
    let lines = answer("draft 567m22456p67s chi=2m discards=N8s4m seat=1 language=4");
    assert_eq!(texts(&lines, "meld"), ["chi 234m"]);
    assert_eq!(texts(&lines, "furiten"), ["1"]);
    assert_eq!(texts(&lines, "score"), ["5s ron 0 1 30 1000", "5s tsumo 0 1 30 1100", "8s ron 0 1 30 1000", "8s tsumo 0 1 30 1100"]);
    let far = answer("draft 1111m44m77m22p55p8p");
    assert_eq!((texts(&far, "swaps"), texts(&far, "out"), texts(&far, "in")), (vec!["2"], vec!["1m8p"], vec!["25p"]));
    assert!(texts(&far, "score").is_empty(), "{far}");
}

#[test]
fn a_record_by_its_bytes() {
    let by_words = answer("draft 112233m778899p5s+5s seat=1 ron=3");
    assert_eq!(answer("draft b81e580000208411e7a08228ac"), by_words);
    let fixed = answer("draft be1e640210620a31661a9a6bb1");
    assert_eq!((texts(&fixed, "fixed"), texts(&fixed, "refusal")), (vec!["be1e640210620a31661a9a6bb1"], vec!["2", "2", "2"]));
}

#[test]
fn what_is_bad_in_a_draft() {
    for (words, err) in [
        ("1q", "word 2, \"1q\": sign 2 of \"1q\", q: a digit 1 to 9, a suit m p s z or an honour E S W N P F C is needed"),
        ("1m+2m 3m+4m", "word 3, \"3m+4m\": a second +; between two hands of a multiple ron stands /"),
        ("chi=8s", "word 2, \"chi=8s\": three neighbours of one suit, such as 234m, are needed; behind = tiles have commas or nothing between them"),
        ("pon=1m pon=2m pon=3m pon=4m pon=5m", "word 6, \"pon=5m\": a fifth meld, at most 4 fit"),
        ("tsumo ron=3", "tsumo and ron=: one of them is enough"),
        ("riichi double", "riichi and double: one of them is enough"),
        ("1m --show", "word 3, \"--show\": no option here; --help lists them"),
    ] {
        let ran = run_in(&root(), &format!("draft {words}"), &[]);
        assert_eq!((ran.status, ran.err.trim_end()), (2, format!("tester: {err}").as_str()), "{words}");
    }
}

#[test]
fn a_game_has_what_tally_has() {
    let given = run_in(&root(), "game docs/evening.txt language=2", &[]).out;
    let tally = run_in(&root(), "tally docs/evening.txt --plain", &[]).out;
    let lines: Vec<String> = texts(&given, "entry")
        .iter()
        .map(|entry| entry.split(' ').collect::<Vec<_>>())
        .map(|cells| [&cells[..1], &cells[2..4], &cells[12..17]].concat().join(" "))
        .collect();
    assert_eq!(lines, tally.lines().collect::<Vec<_>>());
    assert_eq!(texts(&given, "now"), ["0 1 0 0 6 0"]);
    assert_eq!(texts(&given, "place"), ["2 0", "4 1", "1 2", "3 3"]);
    assert_eq!(texts(&given, "correctable"), ["1"]);
    let said = run_in(&root(), "say scores docs/evening.txt language=2 --plain", &[]).out;
    assert_eq!(part(&given, "say"), said);
    assert_eq!((texts(&given, "entries"), texts(&given, "last")), (vec!["10"], vec!["47"]));
    assert_eq!((texts(&given, "start"), texts(&given, "result").len()), (vec!["30000 30000 30000 30000"], 6));
    assert_eq!(texts(&given, "result")[1], "2 29000 36200 29000 25800");
    let some = run_in(&root(), "game docs/evening.txt from=9", &[]).out;
    assert_eq!(texts(&some, "entry"), texts(&given, "entry")[8..]);
    assert!(texts(&run_in(&root(), "game docs/evening.txt from=11", &[]).out, "entry").is_empty());
    let many = answer(&format!("game {}", "0124".repeat(200)));
    assert_eq!((texts(&many, "entries"), texts(&many, "entry").len()), (vec!["400"], 100));
    let paos = answer("game 5070");
    assert_eq!((texts(&paos, "pao"), texts(&paos, "correctable")), (vec!["1 3 28"], vec!["0"]));
    assert_eq!(texts(&answer("game 0140ff"), "stopped"), ["1 40ff no records or over three"]);
}

#[test]
fn the_sheet_is_printed_whole() {
    let sheet = std::fs::read_to_string(root().join("docs/clips.tsv")).expect("the sheet");
    let rows: Vec<&str> = sheet.lines().skip(1).map(str::trim_end).collect();
    assert_eq!(answer("clips --plain").lines().collect::<Vec<_>>(), rows);
}

#[test]
fn damage_says_how_far_it_is() {
    let ran = run_in(&root(), "damage log docs/evening.txt --plain --progress", &[]);
    assert_eq!(ran.status, 0, "{ran:?}");
    assert!(ran.err.lines().all(|line| line.starts_with("progress ") && line.ends_with(" 2310")), "{}", ran.err);
    assert_eq!(ran.out, run_in(&root(), "damage log docs/evening.txt --plain", &[]).out);
}
