//! How people type: winds as seats, spaces, commas, quotation marks, the words of others, and a finished hand where an unfinished one is asked for.

mod run;

use run::{answer, root, run_in, run_words};

const LINE_5: &str = "112233m778899p5s+5s seat=1 ron=3";

/// The lines of a log's text.
fn tally(text: &str) -> String {
    let ran = run_in(&root(), "tally - --plain", text.as_bytes());
    assert!(ran.status == 0 && ran.err.is_empty(), "{text}: {ran:?}");
    ran.out
}

/// A command line fails with this line alone.
fn fails(line: &str, message: &str) {
    let ran = run_in(&root(), line, &[]);
    assert_eq!((ran.status, ran.out.as_str(), ran.err.as_str()), (2, "", format!("tester: {message}\n").as_str()), "{line}");
}

#[test]
fn winds_are_seats_in_every_line_of_a_log() {
    let hand = "234567m345p67s22s+8s";
    let log = |seats: [&str; 4], between: &str| {
        let [east, south, west, north] = seats;
        format!(
            "riichi {south}\nriichi {west}\ndraw {south}{between}{west}\nchombo {north}\ncorrect chombo {east}\n\
             pao holder={east} feeder={west} yaku=28\nwin {hand} seat={south} ron={north}\ncorrect draw {east}{between}{north}\n"
        )
    };
    let numbers = tally(&log(["0", "1", "2", "3"], " "));
    assert!(numbers.starts_with("1 R 0 30000 29000 30000 30000 1\n2 R 0 30000 29000 29000 30000 2\n3 D 0 "), "{numbers}");
    assert_eq!(numbers.lines().filter(|line| line.split(' ').nth(2) == Some("0")).count(), 8, "{numbers}");
    for seats in
        [["E", "S", "W", "N"], ["e", "s", "w", "n"], ["東", "南", "西", "北"], ["East", "south", "WEST", "North"], ["０", "１", "２", "３"]]
    {
        for between in [" ", ",", ", ", "、"] {
            assert_eq!(tally(&log(seats, between)), numbers, "{seats:?}");
        }
    }
    assert_eq!(tally("riichi seat=S\nDraw: E\n"), tally("riichi 1\ndraw 0\n"));
    assert_eq!(answer(&format!("hand {LINE_5} dealer=東 wind=南")), answer(&format!("hand {LINE_5} dealer=0 wind=1")));
}

#[test]
fn the_words_of_others_are_told_in_every_command() {
    let (hand, unfinished) = (format!("hand {LINE_5}"), "112233m778899p5s");
    for (word, why) in [
        ("reach", "the word is riichi"),
        ("Reach", "the word is riichi"),
        ("ippatsu", "there is no ippatsu in these rules, leave the word out"),
        ("daburi", "the word is double"),
        ("haitei", "the word is last"),
        ("tenhou", "the word is first"),
        ("pon", "the tiles are missing, such as pon=222m"),
        ("seat1", "= is missing, write seat=1"),
        ("dealer:1", "= is missing, write dealer=1"),
        ("pon222m", "= is missing, write pon=222m"),
        ("reach=1", "the word is riichi, and stands alone"),
        ("dora=4z", "the tile turned up is indicator=, dora is the next one"),
        ("pong=222m", "the word is pon, such as pon=222m"),
    ] {
        let lines = [
            hand.clone(),
            format!("waits {unfinished}"),
            format!("ready {unfinished}"),
            format!("draft {unfinished}"),
            format!("say waits {unfinished} language=1"),
        ];
        for line in lines {
            let place = 1 + line.split(' ').count();
            fails(&format!("{line} {word}"), &format!("word {place}, \"{word}\": {why}"));
        }
    }
    for word in ["tsumo", "riichi", "ron=3", "seat=1"] {
        fails(
            &format!("ready {unfinished} {word}"),
            &format!("word 3, \"{word}\": an unfinished hand is its tiles and melds, leave the word out"),
        );
    }
    for word in ["riichi", "LAST", "dealer=1", "indicator=4m"] {
        fails(
            &format!("waits {unfinished} {word}"),
            &format!("word 3, \"{word}\": whose hand it is, is missing: write seat= too, such as seat=1"),
        );
    }
    fails("draft foo", "word 2, \"foo\": neither tiles nor one of the words tsumo, riichi, double, rinshan, chankan, last and first");
    fails("ready foo", "word 2, \"foo\": neither tiles nor a meld, such as chi=234m");
    fails("waits 112233m778899p5s discards", "word 3, \"discards\": the tiles are missing, such as discards=N8s4m");
    fails(
        "hand 112233M778899p5s+5s seat=1 ron=3",
        "word 2, \"112233M778899p5s+5s\": sign 7 of \"112233M778899p5s\", M: a suit is a small letter, m p s or z",
    );
}

#[test]
fn a_hand_may_have_spaces_in_it() {
    for (command, more) in
        [("hand", ""), ("draft", ""), ("readings", ""), ("slip", ""), ("judge", ""), ("say", "language=2"), ("damage hand", "random=5")]
    {
        let wanted = answer(&format!("{command} {LINE_5} {more}"));
        for typed in ["112233m 778899p 5s + 5s", "112233m 778899p 5s +5s", "112233m 778899p5s+ 5s", "112233m,778899p,5s+5s"] {
            assert_eq!(answer(&format!("{command} {typed} seat=1 ron=3 {more}")), wanted, "{command} {typed}");
        }
        assert_eq!(answer(&format!("{command} 112233m778899p5s+5s, seat=1, ron=3 {more}")), wanted, "{command}");
    }
    let wanted = tally(&format!("win {LINE_5}\n"));
    assert_eq!(tally("win 112233m 778899p 5s + 5s seat=1 ron=3\n"), wanted);
    let two = tally("multi 234567m345p67s22s+8s seat=1 ron=3 / 234567m345p67s22s+8s seat=2 ron=3\n");
    assert_eq!(tally("multi 234567m345p67s22s+8s seat=1 ron=3/234567m345p67s22s+8s seat=2 ron=3\n"), two);
}

#[test]
fn quotation_marks_are_left_out() {
    let wanted = answer(&format!("hand {LINE_5}"));
    for words in [
        &["hand", "112233m 778899p 5s + 5s seat=1 ron=3"][..],
        &["hand", "“112233m778899p5s+5s”", "seat=1", "ron=3"],
        &["hand", "“112233m", "778899p", "5s+5s", "seat=1", "ron=3”"],
        &["hand", "112233m\"778899p\"5s+5s", "seat='1'", "„ron=3“"],
        &["hand", "«112233m778899p5s+5s»", "「seat=1」", "ron=‘3’"],
        &["hand", "\u{200b}112233m778899p5s+5s\u{feff}", "seat=1\u{a0}ron=3"],
    ] {
        let ran = run_words(words);
        assert_eq!((ran.status, &ran.out), (0, &wanted), "{words:?}: {}", ran.err);
    }
    let ran = run_words(&["tally", "no such file.txt"]);
    assert_eq!(ran.err, "tester: word 2, \"no such file.txt\": no file of this name, nor hexadecimal digits\n");
    let waits = run_words(&["waits", "“567m22456p67s", "chi=234m", "discards=N8s4m”"]);
    assert_eq!(waits.out, answer("waits 567m22456p67s chi=234m discards=N8s4m"));
    assert_eq!(tally(&format!("win “{LINE_5}”\n")), tally(&format!("win {LINE_5}\n")));
    fails("tally “evening.txt”", "word 2, \"“evening.txt”\": no file of this name; leave the quotation marks out");
    // No option is made of a word that was none.
    for word in ["“--plain”", "－－plain"] {
        assert_eq!(run_words(&["draft", word]).status, 2, "{word}");
    }
    assert_eq!(answer(&format!("hand {LINE_5} —plain")), answer(&format!("hand {LINE_5} --plain")));
    fails(&format!("hand {LINE_5} -plain"), "word 5, \"-plain\": an option has two hyphens, such as --plain; --help lists them");
}

#[test]
fn commas_between_tiles() {
    let wanted = answer("waits 567m22456p67s chi=234m discards=N8s4m");
    for typed in ["discards=N,8s,4m", "discards=N, 8s, 4m", "discards=N、8s、4m", "discards=N，8s，4m", "Discards=n,8s4m,"] {
        assert_eq!(answer(&format!("waits 567m22456p67s chi=234m {typed}")), wanted, "{typed}");
    }
    let key = |typed: &str| answer(&format!("draft 567m {typed}")).lines().find(|line| line.starts_with("discards")).map(String::from);
    assert_eq!(key("discards=1m,2m"), Some("discards 12m".into()));
    fails(
        "waits 567m22456p67s chi=234m discards=1,2m",
        "word 4, \"discards=1,2m\": sign 2 of \"1,2m\", ,: the digits before it have no suit m, p, s or z",
    );
    assert_eq!(answer("waits 567m22456p67s chi=234m kinds=1e 19 03"), answer("waits 567m22456p67s chi=234m kinds=1e1903"));
}

#[test]
fn waits_of_a_finished_hand() {
    let bare = answer("waits 112233m778899p5s seat=1");
    let with = |note: &str| bare.replacen("\nwaits ", &format!("\nnote       left out, as said of the finished hand: {note}\nwaits "), 1);
    assert_eq!(answer("waits 112233m778899p5s+5s seat=1"), with("+5s"));
    assert_eq!(answer("waits 112233m 778899p 5s + 5s seat=1 tsumo first"), with("+5s tsumo first"));
    assert_eq!(answer(&format!("waits {LINE_5}")), with("+5s ron=3"));
    assert!(answer(&format!("ready {LINE_5} riichi"))
        .contains("\nnote       left out, as said of the finished hand: +5s seat=1 ron=3 riichi\nready      yes\n"));
    let why = "a finished hand waits for nothing: leave its winning tile out, or put + before it, as in 234567m345p67s22s+8s";
    for command in ["waits", "ready"] {
        fails(
            &format!("{command} 112233m778899p55s"),
            &format!("after word 2, \"112233m778899p55s\": 14 tiles, with 0 melds 13 are needed; {why}"),
        );
        fails(
            &format!("{command} 55s pon=EEE 123456m 789p"),
            &format!("after word 5, \"789p\": 11 tiles, with 1 meld 10 are needed; {why}"),
        );
        fails(
            &format!("{command} 112233m778899p+5s"),
            "after word 2, \"112233m778899p+5s\": 12 tiles before +, with 0 melds 13 are needed",
        );
    }
}

#[test]
fn letters_names_and_numbers_as_people_write_them() {
    assert_eq!(answer(&format!("HAND {LINE_5} Wind=s DEALER=n RIICHI")), answer(&format!("hand {LINE_5} wind=S dealer=3 riichi")));
    for language in ["EN", "English", "2"] {
        assert_eq!(answer(&format!("say {LINE_5} language={language}")), answer(&format!("say {LINE_5} language=en")), "{language}");
    }
    assert_eq!(answer("tally 01 24 --say=en"), answer("tally 01 24 --say en"));
    assert_eq!(run_words(&["tally", "01 24"]).out, answer("tally 01 24"));
    for (line, mark) in [("tally 20241112", ""), ("log 20241112", "# "), ("damage log 20241112 random=1", "")] {
        assert!(answer(line).starts_with(&format!("{mark}no file of the name 20241112: read as hex\n")), "{line}");
    }
    assert!(!answer("tally 2024 1112").contains("no file"));
    assert_eq!(run_words(&["tally", "20241112", "--plain"]).err, "tester: no file of the name 20241112: read as hex\n");
    assert_eq!(answer("cards M 2"), answer("cards m 2"));
    assert_eq!(answer(&format!("rename {LINE_5} suits=p,s,m")), answer(&format!("rename {LINE_5} suits=psm")));
    fails(&format!("rotate {LINE_5} 2"), "after word 5, \"2\": the number of seats is missing, such as by=1");
    fails("tally docs/evening.txt words", "word 3, \"words\": an option has two hyphens, --words");
    fails("tally docs", "word 2, \"docs\": this is a folder and no file");
    let why = "digits alone are bytes, two digits for each; tiles have a suit m, p, s or z behind their digits";
    fails("hand 11223344556677 seat=1 ron=3", &format!("word 2, \"11223344556677\": {why}"));
    fails("waits 1122334455667", &format!("word 2, \"1122334455667\": {why}"));
    fails("waits 5s", "after word 2, \"5s\": 1 tile, with 0 melds 13 are needed");
    let digits = answer("hand 11223344556677");
    assert!(
        digits.contains("\nnote       digits alone are bytes, two digits for each; tiles have a suit m, p, s or z behind their digits\n"),
        "{digits}"
    );
}

#[test]
fn words_of_a_program_are_not_counted() {
    for (line, message) in [
        (
            "draft language=2 --plain --typed 1m 1q",
            "word 2, \"1q\": sign 2 of \"1q\", q: a digit 1 to 9, a suit m p s z or an honour E S W N P F C is needed",
        ),
        ("damage hand --plain --typed 123m", "word 1, \"123m\": neither tiles with + before the winning one nor hexadecimal digits"),
        ("damage hand --plain --typed", "no hand, such as 234567m345p67s22s+8s seat=1 ron=3"),
        ("say waits language=2 --typed 567m", "after word 1, \"567m\": 3 tiles, with 0 melds 13 are needed"),
        ("draft language=9x --typed 1m", "\"language=9x\": ja, en, ko, zh or 1 to 4 is needed (a number up to 255 to see it refused)"),
    ] {
        fails(line, message);
    }
    assert_eq!(answer(&format!("draft language=2 --typed {LINE_5}")), answer(&format!("draft {LINE_5} language=2")));
    for (called, place) in [("called=evening.txt", "evening.txt, line 2, word 2"), ("called=", "line 2, word 2")] {
        let ran = run_in(&root(), &format!("game - {called}"), b"riichi 1\ndraw X\n");
        assert!(ran.status == 2 && ran.err.starts_with(&format!("tester: {place}, \"X\": a seat is ")), "{}", ran.err);
    }
    let more = |log: &str, line: &str| run_words(&["game", log, &format!("more={line}")]);
    assert_eq!(more("01", "draw S").out, answer("game 01 24"));
    let broken = "the log's last bytes are no whole entries, so nothing is booked after them: refusal 14, the log's entry is bad or cut: no records or over three";
    for (log, line, message) in [
        ("0140", "draw 1", broken),
        ("01", "riichi", "the seat is missing, 0 to 3"),
        ("01", "win b8", "\"b8\": refusal 14, the log's entry is bad or cut: bytes missing"),
    ] {
        assert_eq!((more(log, line).status, more(log, line).err), (2, format!("tester: {message}\n")), "{line}");
    }
}

#[test]
fn what_people_write_by_habit() {
    let hand = format!("hand {LINE_5}");
    assert_eq!(answer(&format!("{hand} double riichi")), answer(&format!("{hand} double")));
    for word in ["doubleriichi", "Double-Riichi", "DOUBLE Riichi"] {
        assert_eq!(answer(&format!("{hand} {word}")), answer(&format!("{hand} double")), "{word}");
        assert_eq!(answer(&format!("waits 112233m778899p5s seat=1 {word}")), answer("waits 112233m778899p5s seat=1 double"), "{word}");
        assert_eq!(answer(&format!("draft 112233m {word}")), answer("draft 112233m double"), "{word}");
    }
    let (no_ura, no_kan) =
        ("there is no ura-dora in these rules, leave the word out", "there is no kan-dora in these rules, leave the word out");
    let (red, table) = ("there are no red fives here, leave the word out", "counters and sticks are the game's: use tester tally");
    let wind = "the word is wind=, such as wind=S";
    for (word, why) in [
        ("ura", no_ura),
        ("ura=4z", no_ura),
        ("uradora=4z", no_ura),
        ("kandora=4z", no_kan),
        ("honba", table),
        ("honba=1", table),
        ("counter=1", table),
        ("sticks=2", table),
        ("aka", red),
        ("red", red),
        ("Red5", red),
        ("akadora", red),
        ("round=S", wind),
        ("seatwind=S", "the seat's wind follows from seat= and dealer=, leave the word out"),
        ("1", "a number alone says nothing: the winner is seat=, whose discard it was ron="),
        ("(234m)", "a meld is written without brackets, as chi=234m, pon=, kan= or ankan="),
        ("[EEE]", "a meld is written without brackets, as chi=234m, pon=, kan= or ankan="),
        ("/", "/ stands between the hands of a log's multiple ron, whose word is multi"),
    ] {
        fails(&format!("{hand} {word}"), &format!("word 5, \"{word}\": {why}"));
    }
    let commas = "behind = tiles have commas or nothing between them";
    fails(
        "hand 567m22456p67s+8s chi=2m 3m 4m seat=1 ron=3",
        &format!("word 3, \"chi=2m\": three neighbours of one suit, such as 234m, are needed; {commas}"),
    );
    fails(
        "waits 112233m778899p5s discards=5s 8s E",
        &format!("after word 5, \"E\": 15 tiles, with 0 melds 13 are needed; {commas}: discards=5s,8s"),
    );
    fails("hand 112233m778899p5s+5s seat=1,ron=3", "word 3, \"seat=1,ron=3\": a space is missing before the next word");
    fails("hand 112233m778899p5s+5s seat=1 ron=3,riichi", "word 4, \"ron=3,riichi\": a space is missing before the next word");
    fails(
        "say waits 112233m778899p5s discards=5s 8s E language=2",
        &format!("after word 7, \"language=2\": 15 tiles, with 0 melds 13 are needed; {commas}: discards=5s,8s"),
    );
    fails(
        "hand 112233m778899p5s+5s seat=1 tsumo last rinshan",
        "word 6, \"rinshan\": an earlier word has said this already: one of rinshan, chankan, last and first fits",
    );
    fails(
        "tally docs/evening.txt --csv to=x.csv",
        "word 4, \"to=x.csv\": to= is an option of tester log; write > x.csv to keep what is printed",
    );
    fails("log docs/evening.txt to", "word 3, \"to\": the file to write is missing, such as to=evening.bin");
    fails(
        &format!("judge {LINE_5} claim=5200"),
        "word 5, \"claim=5200\": the points are gain=5200; claim= is the reading: regular, pairs or orphans",
    );
    assert_eq!(answer("damage hand b8 random=1,000"), answer("damage hand b8 random=1000"));
    fails(
        "damage hand b8 random=99999999999999999999",
        "word 4, \"random=99999999999999999999\": a number of changes, such as 1000, is needed, at most 18446744073709551615",
    );
    fails(&format!("rotate {LINE_5} by=256"), "word 5, \"by=256\": a number of seats, such as 1, is needed, at most 255");
}

#[test]
fn what_people_write_by_habit_in_a_log() {
    for (line, why) in [
        ("riichi 2#no space", "word 2, \"2#no\": a space is missing before # (up to 15 to see it refused)"),
        ("riichi:1", "word 1, \"riichi:1\": a space is missing: riichi 1"),
        ("Riichi=1", "word 1, \"Riichi=1\": a space is missing: riichi 1"),
        ("chombo3", "word 1, \"chombo3\": a space is missing: chombo 3"),
        (
            "win 112233m778899p5s+5s seat=1 ron=3 / 00",
            "word 5, \"/\": / stands between the hands of a log's multiple ron, whose word is multi",
        ),
        (
            "multi 112233m778899p5s+5s seat=1 ron=3 112233m778899p5s+5s seat=2 ron=3",
            "word 5, \"112233m778899p5s+5s\": a second +; between two hands of a multiple ron stands /",
        ),
    ] {
        let ran = run_in(&root(), "tally -", format!("{line}\n").as_bytes());
        assert_eq!((ran.status, ran.err), (2, format!("tester: standard input, line 1, {why}\n")), "{line}");
    }
}
