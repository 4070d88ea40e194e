//! Each command on the worked examples of docs/RECORDS.md, and on logs there and back.

mod run;

use std::fs;
use std::path::Path;

use other_scorer::example::{example, End};
use other_scorer::log::tally_lines;
use other_scorer::notation::hex::from_hex;
use run::{answer, folder, root, run_in};

const LINE_1: &str = "b81e640210620a31661a9a6bb0";
const LINE_6: &str = "b81e64808828c51461a72ec0";

#[test]
fn a_hand_to_its_record_and_back() {
    for (typed, record, notation) in [
        ("234567m345p67s22s+8s seat=1 ron=3", LINE_1, "234567m345p2267s+8s seat=1 ron=3 indicator=N"),
        ("567m456p67s22p+8s chi=234m seat=1 ron=3", LINE_6, "567m22456p67s+8s chi=234m seat=1 ron=3 indicator=N"),
    ] {
        let out = answer(&format!("hand {typed} --plain"));
        assert!(out.contains(&format!("\nrecord {record}\n")), "{out}");
        assert_eq!(answer(&format!("hand --plain {record}")), out);
        let first = &out[..out.find('\n').expect("a line")];
        assert_eq!(first, format!("notation {notation}"));
        assert_eq!(answer(&format!("hand {notation} --plain")), out);
    }
}

#[test]
fn a_hand_for_reading() {
    let out = answer("hand 111m333p555s77s99s+7s seat=1 ron=3");
    for row in [
        "answer     accepted",
        "reading    99s 111m 333p 555s [777s]",
        "17 four triplets                                  2",
        "concealed triplet 111m                         8",
        "open triplet 777s                              2",
        "A, limit: 3,200 exceeds 2,000              2,000",
        "seat 1        S child   wins                            +8,000",
        "seat 3        N child   pays 4 A = 8,000                -8,000",
        "both scorers agree",
    ] {
        assert!(out.contains(row), "{row} in\n{out}");
    }
    let items = [("fu items", "base", 20), ("", "closed ron", 10)];
    let items = items.map(|(label, name, item)| format!("{label:<13} {name:<39}{item:>9}\n"));
    assert!(out.contains(&items.concat()), "{out}");
    let south = answer("hand 234567m345p67s22s+8s seat=0 tsumo dealer=3 wind=S");
    assert!(south.contains("dealer=3 wind=S; the winner is S") && south.contains("pays 2 A"), "{south}");
    assert_eq!(south, answer("hand 234567m345p67s22s+8s seat=0 tsumo dealer=N wind=1"));
}

#[test]
fn a_hand_in_other_signs() {
    let plain = answer("hand 2345m+2m pon=EEE chi=123p ankan=CCCC seat=1 ron=3 indicator=1z");
    for typed in [
        "２３４５ｍ＋２ｍ pon=eee chi=123p ankan=cccc seat=S ron=n indicator=e",
        "🀈🀉🀊🀋+🀈 pon=東東東 chi=🀙🀚🀛 ankan=中中中中 seat=s ron=N indicator=東",
        "2345m+2m pon=1z1z1z chi=123p ankan=7777z seat=南 ron=北 indicator=🀀",
    ] {
        assert_eq!(answer(&format!("hand {typed}")), plain, "{typed}");
    }
    assert!(plain.contains("\nanswer     accepted\n"), "{plain}");
    assert_eq!(answer("waits eesswwnnppffc discards=c"), answer("waits EESSWWNNPPFFC discards=中"));
}

#[test]
fn a_named_indicator_is_seen() {
    let left = |words: &str| {
        answer(&format!("waits 567m22456p67s chi=234m {words} --plain"))
            .lines()
            .filter_map(|line| line.strip_prefix("wait ").and_then(|wait| wait.split("; ").nth(1)).map(String::from))
            .collect::<Vec<String>>()
            .join(" ")
    };
    assert_eq!(left("seat=1"), "4 4");
    assert_eq!(left("seat=1 indicator=5s"), "3 4");
    assert_eq!(left("seat=1 indicator=5s discards=5s8s5s5s"), "0 3");
    assert!(answer("waits record=b81964808828c51461a72ec0 --plain").contains("\nwait 8s; 3; "));
    let north = |words: &str| answer(&format!("draft 123456789m11pNN seat=1 {words}")).lines().any(|line| line.starts_with("wait N; 2"));
    assert!(north("") && !north("indicator=N"));
}

#[test]
fn a_suit_letter_that_may_be_missing() {
    let note = "\nnote       234567345p is read as 9 tiles, all p; if 234567 is of another suit, its letter is missing after 234567\n";
    let hand = "234567345p67s22s+8s seat=1 ron=3";
    for line in [format!("hand {hand}"), format!("readings {hand}"), format!("rotate {hand} by=1"), format!("say {hand} language=en")] {
        assert!(answer(&line).contains(note), "{line}");
    }
    for line in ["waits 234567345p67s22s".to_string(), "ready 234567345p67s22s".into(), "say ready 234567345p67s22s language=en".into()] {
        assert!(answer(&line).contains(note), "{line}");
    }
    let plain = &note["\nnote       ".len()..];
    for (line, start) in [(format!("damage hand {hand} random=2"), ""), (format!("draft {hand}"), "note ")] {
        assert!(answer(&line).lines().any(|said| format!("{said}\n") == format!("{start}{plain}")), "{line}");
    }
    let text = format!("riichi 0\nwin {hand}\nmulti {hand} / {hand}\ncorrect win {hand}\n");
    let placed = |start: &str| [2, 3, 3, 4].map(|line| format!("{start}standard input, line {line}: {plain}")).concat();
    for line in ["tally -", "tally - --words", "log -", "damage log - random=2", "say scores - language=en"] {
        let ran = run_in(Path::new("."), line, text.as_bytes());
        assert!(ran.out.contains(&placed("")) && ran.err.is_empty(), "{line}: {ran:?}");
    }
    for line in ["tally - --csv", "tally - --plain", "log - --plain", "damage log - random=2 --plain", "say scores - language=en --plain"] {
        let ran = run_in(Path::new("."), line, text.as_bytes());
        assert!(ran.err == placed("tester: ") && !ran.out.contains("is read as"), "{line}: {ran:?}");
    }
    assert!(run_in(Path::new("."), "game -", text.as_bytes()).out.contains(&placed("note ")));
    assert!(answer("hand 112233m7788995s+5s seat=1 ron=3").contains("\nnote       7788995s is read as 7 tiles, all s; if 778899 is "));
    for line in ["hand 234567m345p67s22s+8s seat=1 ron=3", "waits 1112345678999m"] {
        assert!(!answer(line).contains("note "), "{line}");
    }
}

#[test]
fn slips() {
    let text = "\
HAN                    2
FU                    30
SEAT 0                 0
SEAT 1              2000
SEAT 2                 0
SEAT 3             -2000
";
    for typed in ["234567m345p67s22s+8s seat=1 ron=3", LINE_1] {
        for page in ["", "page=150", "page=65536"] {
            let out = answer(&format!("slip {typed} {page}"));
            assert!(out.contains(&format!("\nanswer     accepted\ntried      1 reading\n\n{text}\nboth scorers agree\n")), "{out}");
            let out = answer(&format!("slip {typed} {page} --plain"));
            assert!(out.ends_with(&format!("refusal 0\nslip 0\n{text}differences 0\n")), "{out}");
        }
    }
    let south = answer("slip 234567m345p67s22s+8s seat=1 tsumo dealer=1 wind=S");
    assert!(south.contains("SEAT 0             -1300\nSEAT 1              3900\n"), "{south}");
    let short = answer("slip 234567m345p67s22s+8s seat=1 ron=3 page=149");
    assert!(short.contains("slip       refusal 16, the page is shorter than a slip: 149 bytes\n"), "{short}");
    assert!(!short.contains("HAN") && short.contains("answer     accepted"), "{short}");
    for (typed, refusal) in [("456p78s234s99p+9s chi=123m seat=1 ron=3", 7), (&LINE_1[..24], 1)] {
        let out = answer(&format!("slip {typed} page=0 --plain"));
        assert!(out.contains(&format!("\nslip {refusal}\ndifferences 0\n")), "{out}");
    }
}

#[test]
fn waits_of_unfinished_hands() {
    for typed in ["67s567m22456p chi=234m", "20220a31451869cbb0", "20 22 0a31451869cbb0"] {
        let out = answer(&format!("waits {typed} discards=N8s4m8s"));
        let wanted = "\
hand       567m22456p67s chi=234m
discards   N8s4m8s
bytes      20220a31451869cbb0, 9 bytes
answer     accepted
waits      58s
furiten    yes, by 8s

wait  left
5s       4
8s       2

both scorers agree
";
        assert_eq!(out, wanted);
    }
    for (typed, lines) in [
        ("1112345678999m", "discards\nrefusal 0\nwaits 123456789m\nfuriten 0\n"),
        ("19m19p19sESWNPFC kinds=0c", "discards 0c\nrefusal 0\nwaits 19m19p19sESWNPFC\nfuriten 0\n"),
        ("1111567m234678p discards=1m", "discards 00\nrefusal 0\nwaits\nfuriten 0\n"),
        ("E ankan=5555s pon=111m pon=222m pon=333m discards=E", "discards 1b\nrefusal 0\nwaits E\nfuriten 1\n"),
        ("5555m5m1234p1234s kinds=ff", "discards ff\nrefusal 4\nwhy 5 of 5m\nwaits\nfuriten 0\n"),
        ("1112345678999m kinds=0022", "discards 0022\nrefusal 15\nwhy 34 over 33\nwaits\nfuriten 0\n"),
        ("20220a31451869cbb1", "discards\nrefusal 2\nwhy a padding bit set\nwaits\nfuriten 0\n"),
        ("20228831451869cbb0", "discards\nrefusal 3\nwhy 5m after 6m\nwaits\nfuriten 0\n"),
        ("a0", "discards\nrefusal 1\nwhy m over 4\nwaits\nfuriten 0\n"),
    ] {
        let out = answer(&format!("waits {typed} --plain"));
        let of_waits = |line: &&str| !line.starts_with("wait ");
        let rest: String = out.lines().filter(of_waits).map(|line| format!("{line}\n")).collect();
        assert!(rest.ends_with(&format!("{lines}differences 0\n")), "{out}");
    }
    let of_record = answer("ready record=b81e640210620a31661a9a6bb0");
    assert_eq!(of_record.replace("record     b81e640210620a31661a9a6bb0, 13 bytes\n", ""), answer("ready 234567m345p67s22s"));
    // What Score gives the finished records of document 01's table.
    let out = answer("waits 234567m345p67s22s seat=1 --plain");
    assert!(
        out.contains("\nwait 5s; 4; h 2, fu 30, 2,000; h 3, fu 20, 2,700\nwait 8s; 4; h 2, fu 30, 2,000; h 3, fu 20, 2,700\n"),
        "{out}"
    );
    let out = answer("waits 456p78s234s99p chi=123m seat=S discards=9s9s");
    assert!(out.contains("\nwait  left  by ron   by tsumo\n6s       4  no yaku  no yaku\n9s       2  no yaku  no yaku\n"), "{out}");
    let out = answer("waits 111m333p555s77s99s seat=1");
    assert!(out.contains("\n7s       2  h 4, fu 50, 8,000  yakuman, 32,000\n"), "{out}");
}

#[test]
fn how_far_from_ready() {
    let out = answer("ready 1111m44m77m22p55p8p");
    let (first, last) = (
        "hand       11114477m22558p\nbytes      000000018630c51469a800, 11 bytes\nanswer     accepted\nready      after 2 swaps: ",
        "\nboth scorers agree\n",
    );
    assert!(out.starts_with(first) && out.ends_with(last) && out.contains("\nwaits then "), "{out}");
    for (typed, lines) in [
        ("1112345678999m", "refusal 0\nswaps 0\nready 1112345678999m\nwaits 123456789m\n"),
        ("6m pon=555m pon=111p pon=222p pon=333p", "refusal 0\nswaps 0\nready 6m\nwaits 6m\n"),
        ("5555m5m1234p1234s", "refusal 4\nwhy 5 of 5m\nswaps 0\nready\nwaits\n"),
        ("20220a31451869cbb1", "refusal 2\nwhy a padding bit set\nswaps 0\nready\nwaits\n"),
        ("20228831451869cbb0", "refusal 3\nwhy 5m after 6m\nswaps 0\nready\nwaits\n"),
        ("a0", "refusal 1\nwhy m over 4\nswaps 0\nready\nwaits\n"),
    ] {
        let out = answer(&format!("ready {typed} --plain"));
        assert!(out.ends_with(&format!("{lines}differences 0\n")), "{out}");
    }
    assert!(answer("ready 5m pon=555m pon=111p pon=222p pon=333p --plain").contains("\nswaps 1\n"));
}

#[test]
fn cards() {
    let two = "11m 22m 33m 44m 55m 66m 77m 88m 99m";
    let out = answer("cards m 2 buffer=18");
    assert_eq!(out, format!("cards      suit 0, 2 tiles, a buffer of 18 bytes\nanswer     accepted\ncount      9 sets, 18 bytes\n\n{two}\n\nboth scorers agree\n"));
    for (suit, letter) in ["m", "p", "s"].iter().enumerate() {
        let out = answer(&format!("cards {letter} 2 --plain"));
        let list: String = two.replace('m', letter).split(' ').map(|card| format!("card {card}\n")).collect();
        assert_eq!(out, format!("suit {suit}\nsize 2\nrefusal 0\ncount 9\n{list}differences 0\n"));
        for (size, count, bytes) in [(5, 135, 675), (8, 996, 7968)] {
            let out = answer(&format!("cards {suit} {size} buffer={bytes}"));
            assert!(out.contains(&format!("count      {count} sets, {bytes} bytes\n")), "{out}");
            let out = answer(&format!("cards {suit} {size} --plain"));
            assert_eq!(out.matches("card ").count(), count, "{out}");
        }
    }
    for words in ["3 2", "255 8", "m 3", "m 0", "p 11", "s 2 buffer=17", "s 5 buffer=674", "s 8 buffer=7967"] {
        let out = answer(&format!("cards {words}"));
        assert!(out.contains("answer     refusal 19, no such suit or size, or the buffer is shorter than the list\n\nboth"), "{out}");
    }
}

#[test]
fn waits_of_a_record() {
    let record = "b81e64808828c51461a72ec0";
    let wanted = "\
hand       567m22456p67s chi=234m
discards   N8s4m8s
record     b81e64808828c51461a72ec0, 12 bytes
bytes      20220a31451869cbb0, 9 bytes
answer     accepted
waits      58s
furiten    yes, by 8s
player     seat=1 indicator=N dealer=0 wind=E

wait  left  by ron             by tsumo
5s       4  h 1, fu 30, 1,000  h 1, fu 30, 1,100
8s       2  h 1, fu 30, 1,000  h 1, fu 30, 1,100

both scorers agree
";
    for typed in [record.to_string(), "b8 1e 64 80 88 28 c5 14 61 a7 2e c0".into(), record.to_uppercase()] {
        assert_eq!(answer(&format!("waits record={typed} discards=N8s4m8s")), wanted, "{typed}");
    }
    // The record's winner, riichi, indicator and last tile are the player's; seat= says another.
    let plain = |line: &str| answer(&format!("{line} --plain"));
    let tiles = "234567m345p67s22s";
    let own = answer(&format!("hand {tiles}+8s seat=2 tsumo double last indicator=4p --plain"));
    let digits = own.lines().find_map(|line| line.strip_prefix("record ")).expect("a record");
    for (more, player) in
        [("dealer=2 wind=S", "seat=2 double last indicator=4p dealer=2 wind=S"), ("seat=1 riichi dealer=3", "seat=1 riichi dealer=3")]
    {
        assert_eq!(plain(&format!("waits record={digits} {more}")), plain(&format!("waits {tiles} {player}")), "{more}");
    }
    let (tiles, melds) = ("567m22p67s", "chi=234m kan=9999p");
    let rinshan = answer(&format!("hand {tiles}+8s {melds} seat=2 tsumo rinshan --plain"));
    let digits = rinshan.lines().find_map(|line| line.strip_prefix("record ")).expect("a record");
    assert_eq!(plain(&format!("waits record={digits}")), plain(&format!("waits {tiles} {melds} seat=2")));
    assert!(
        answer(&format!("waits {record}")).contains(&format!("\nnote       these bytes have a record's length: write record={record}\n"))
    );
}

#[test]
fn a_refused_record_is_an_answer() {
    for (record, refusal, why) in [
        ("b8", 1, "under 4 bytes"),
        ("b81e64808828c51461a72ec1", 2, "a padding bit set"),
        ("ba1e64808828c51461a72ec0", 5, "riichi without a closed hand"),
    ] {
        let head = format!("refusal {refusal}\nwhy {why}\n");
        for (line, rest) in [
            ("waits", "waits\nfuriten 0\ndifferences 0\n".to_string()),
            ("ready", "swaps 0\nready\nwaits\ndifferences 0\n".into()),
            ("say waits language=2", format!("language 2\nsaid {refusal} 0\nclips\ndifferences 0\n")),
            ("say ready language=2", format!("language 2\nsaid {refusal} 0\nclips\ndifferences 0\n")),
        ] {
            let out = answer(&format!("{line} record={record} --plain"));
            assert!(out.starts_with("notation\nbytes\n") && out.ends_with(&format!("{head}{rest}")), "{line}: {out}");
            let out = answer(&format!("{line} record={record}"));
            assert!(out.contains(&format!("\nanswer     refusal {refusal}, ")) && out.contains(why), "{out}");
            assert!(out.contains(&format!("record     {record}, ")) && out.ends_with("both scorers agree\n"), "{out}");
        }
    }
}

#[test]
fn claims() {
    let (five, seven) = ("112233m778899p5s+5s seat=1 ron=3", "456p78s234s99p+9s chi=123m seat=1 ron=3");
    for (hand, claim, judged, words) in [
        (five, "16000078f01450", "0 0", "accepted"),
        (five, "16000078f21450", "0 1", "1, its reading is not one of those tiles: the place is wrong, 5s completes 55s and not 123m"),
        (
            five,
            "16 00 00 78 f2 14 50",
            "0 1",
            "1, its reading is not one of those tiles: the place is wrong, 5s completes 55s and not 123m",
        ),
        (seven, "11184cc301f400", "0 2", "2, its reading has no yaku"),
        (five, "40d480", "0 3", "3, its reading does not pay that gain"),
        (five, "40c800", "0 4", "4, another reading with a yaku pays more"),
        (seven, "40c800", "0 1", "1, its reading is not one of those tiles"),
        (five, "40c801", "22 0", "refusal 22, the claim is faulty: a padding bit set"),
        (five, "", "22 0", "refusal 22, the claim is faulty: another length"),
    ] {
        let out = answer(&format!("judge {hand} claim={claim}"));
        assert!(out.contains(&format!("\njudged     {words}\n")) && out.ends_with("both scorers agree\n"), "{out}");
        let out = answer(&format!("judge {hand} claim={claim} --plain"));
        assert!(out.contains(&format!("\nclaim {}", claim.replace(' ', "")).trim_end().to_string()), "{out}");
        assert!(out.contains(&format!("\njudged {judged}\n")) && out.ends_with("differences 0\n"), "{out}");
    }
    for (hand, words, claim) in [
        (five, "regular pair=55s groups=123m,123m,789p,789p place=pair gain=5200", "16000078f01450"),
        (five, "REGULAR pair=55s groups=789p,321m,789p,123m, place=0 gain=5,200", "16000078f01450"),
        (five, "regular pair=55s groups=123m, 123m, 789p, 789p place=55s gain=5200", "16000078f01450"),
        (five, "regular pair=55s groups=123m123m789p789p place=Pair gain=5200", "16000078f01450"),
        (five, "pairs gain=1600", "40c800"),
        (seven, "Orphans gain=32000", "8fa000"),
        (seven, "regular pair=99p groups=456p,234s,789s place=789s gain=1000", "11184cc301f400"),
        (seven, "regular pair=99p groups=789s,456p,234s place=1 gain=1000", "11184cc301f400"),
    ] {
        let in_words = answer(&format!("judge {hand} claim={words}"));
        assert_eq!(in_words, answer(&format!("judge {hand} claim={claim}")), "{words}");
        assert!(in_words.contains(&format!("\nclaim      {claim}, ")), "{in_words}");
    }
    // A place that no reading of the pair and groups has is told as that, with those that have the winning tile.
    let nine = "1112333444555m+2m seat=1 ron=3";
    let out = answer(&format!("judge {nine} claim=regular pair=55m groups=234m,234m,345m,111m place=111m gain=12000 --plain"));
    assert!(out.contains("\njudged 0 1\nfault the place is wrong, 2m completes 234m and not 111m\n"), "{out}");
    // So many equal tiles in groups are no fault of the claim.
    let out = answer(&format!("judge {five} claim=regular pair=55s groups=555s,555s,555s,EEE place=EEE gain=0"));
    assert!(out.contains("\njudged     1, its reading is not one of those tiles\n"), "{out}");
    let own = answer(&format!("judge {five} --plain"));
    assert!(own.contains("\nclaim 16000078f01450\nreading regular 55s 123m,123m,789p,789p 0\ngain 5200\njudged 0 0\n"), "{own}");
    let out = answer(&format!("judge {five} claim=16000078f01450"));
    assert!(out.contains("\nclaimed    [55s] 123m 123m 789p 789p, [ ] with the winning tile\nits gain   5,200\n"), "{out}");
    for (typed, refusal) in [(&LINE_1[..24], 1), (five, 8)] {
        let dealer = if refusal == 8 { "dealer=4" } else { "" };
        let out = answer(&format!("judge {typed} {dealer} claim=40c801 --plain"));
        assert!(out.contains(&format!("\njudged {refusal} 0\n")), "{out}");
    }
}

#[test]
fn items_of_fu_by_name() {
    for (hand, rows) in [
        (
            "46mPP+5m kan=9999s kan=2222p ankan=EEEE seat=1 tsumo",
            &[
                "base 20",
                "value pair 2",
                "open kan 9999s 16",
                "open kan 2222p 8",
                "concealed kan EEEE 32",
                "wait on the middle of a run 2",
                "tsumo 2",
                "rounding 8",
            ][..],
        ),
        ("99p45888s+3s pon=EEE chi=123m seat=1 ron=3", &["base 20", "concealed triplet 888s 4", "open triplet EEE 4", "rounding 2"]),
        ("567m456p67s22p+8s chi=234m seat=1 ron=3", &["base 20", "rounding 10"]),
        ("1122m3344p5566sE+E seat=1 ron=3", &["base 25"]),
        ("111m333p555s77s99s+7s seat=1 tsumo", &[]),
    ] {
        let out = answer(&format!("hand {hand}"));
        let h = out.find("\nh ").expect("h") + 1;
        let mut lines = out[h..].lines().skip(1).map(|line| line.trim_start_matches("fu items"));
        let words = |line: &str| line.split_whitespace().collect::<Vec<_>>().join(" ");
        let items: Vec<String> = lines.by_ref().take_while(|line| !line.starts_with("fu ")).map(words).collect();
        assert_eq!(items, rows, "{out}");
    }
}

#[test]
fn refusals_of_a_hand_say_which_condition_was_met() {
    let hand = "234567m345p67s22s+8s seat=1";
    for (words, refusal, why) in [
        ("b8".to_string(), 1, "under 4 bytes"),
        (LINE_1.replace("6402", "6782"), 1, "m over 4"),
        (LINE_1[..24].to_string(), 1, "a length not m's: 12 bytes, with 0 melds 13 are needed"),
        (format!("{hand} ron=1"), 2, "ron with discarder equal to winner"),
        (LINE_1.replace("b81e", "be1e"), 2, "riichi 3"),
        (LINE_1.replace("6bb0", "6bb1"), 2, "a padding bit set"),
        (LINE_1.replace("b81e", "b822"), 2, "indicator over 33"),
        (LINE_1.replace("6402", "6422"), 3, "3m after 9p"),
        ("222234m345p67s22m+8s seat=1 ron=3".into(), 4, "6 of 2m"),
        (format!("{hand} tsumo chankan"), 5, "chankan on tsumo"),
        (format!("{hand} ron=3 riichi first"), 5, "first turn with ron"),
        (format!("{hand} ron=3 riichi first"), 5, "first turn with riichi"),
        (format!("{hand} ron=3 rinshan"), 5, "rinshan without a kan"),
        ("1111m44m77m22p55p8p+8p seat=1 ron=3".into(), 6, "neither a pair and groups"),
        ("456p78s234s99p+9s chi=123m seat=1 ron=3".into(), 7, "1 reading"),
        (format!("{hand} ron=3 dealer=4"), 8, "dealer 4 over 3"),
        (format!("{hand} ron=3 wind=W"), 8, "wind 2 over 1"),
    ] {
        let out = answer(&format!("hand {words} --plain"));
        let lines: Vec<&str> = out.lines().collect();
        assert!(lines.contains(&format!("refusal {refusal}").as_str()), "{words}\n{out}");
        assert!(out.contains(&format!("why {why}")), "{words}\n{out}");
        assert!(answer(&format!("hand {words}")).contains(&format!("answer     refusal {refusal}, ")), "{words}");
    }
}

#[test]
fn readings_say_why_they_lose() {
    for (hand, rows) in [
        (
            "112233m778899p5s+5s seat=1 ron=3",
            [
                "> 1  55s   123m 123m 789p 789p  0 pair  21    3  40  5,200  REPORTED",
                "  2        seven pairs                  12    2  25  1,600  3,600 less than 1",
            ],
        ),
        (
            "2223445m5m678p99s+3m seat=1 ron=2",
            [
                "> 1  99s   345m 345m 678p 222m  1 345m  5     1  40  1,300  REPORTED",
                "  2  99s   345m 345m 678p 222m  2 345m  5     1  40  1,300  equal to 1, which comes first",
            ],
        ),
        ("112233667788sW+W seat=1 ron=3 riichi", ["REPORTED", "same gain as 1, h 6 under 7"]),
        ("666m3334566p666s+6p seat=3 ron=1 riichi", ["REPORTED", "same gain and h as 2, fu 40 under 50"]),
        ("789p5566677788s+5s seat=3 ron=1", ["REPORTED", "2 555s  -     0  40      0  no yaku"]),
    ] {
        let out = answer(&format!("readings {hand}"));
        rows.iter().for_each(|row| assert!(out.contains(row), "{row} in\n{out}"));
    }
    let plain = answer("readings 112233m778899p5s+5s seat=1 ron=3 --plain");
    assert!(plain.contains("reading 1 regular 55s 123m,123m,789p,789p 0 21 3 40 5200 reported\nworth 1 3 0 1280\n"), "{plain}");
    assert!(plain.contains("reading 2 seven-pairs - - - 12 2 25 1600 loses\nworth 2 2 0 400\n"), "{plain}");
    let none = answer("readings 456p78s234s99p+9s chi=123m seat=1 ron=3 indicator=8p");
    assert!(none.contains("refusal 7") && !none.contains("REPORTED"), "{none}");
    assert!(none.contains("3 789s  -     2  30     0  no yaku\n\ndora    9p                                             2\n\n"), "{none}");
    assert!(answer("readings 1111m44m77m22p55p8p+8p seat=1 ron=3").contains("readings   0\n"));
}

#[test]
fn every_reading_of_a_hand_with_twelve() {
    let out = answer("readings 1112223333444m+2m seat=1 ron=3");
    assert!(out.contains("\nreadings   12\n") && out.ends_with("\n\nboth scorers agree\n"), "{out}");
    for row in [
        "\n   1  11m   123m 234m 234m 234m  1 123m  5 25    7  40  12,000  4,000 less than 5\n",
        "\n>  5  11m   123m 222m 333m 444m  1 123m  18 25   8  50  16,000  REPORTED\n",
        "\n  11  44m   234m 111m 222m 333m  1 234m  18 25   8  50  16,000  equal to 5, which comes first\n",
        "\nyaku 18 three concealed triplets                       2\n",
    ] {
        assert!(out.contains(row), "{row} in\n{out}");
    }
    assert_eq!(out.matches("same gain and h as 5, fu 30 under 50").count(), 4, "{out}");
    let plain = answer("readings 1112223333444m+2m seat=1 ron=3 --plain");
    assert_eq!((plain.matches("\nreading ").count(), plain.matches(" reported\n").count()), (12, 1), "{plain}");
}

#[test]
fn han_as_they_count() {
    let open = answer("hand 123m12p99p+3p chi=123s pon=EEE seat=0 ron=3 indicator=8p --plain");
    assert!(open.contains("\nyaku 3 13 15\nhan 2 1 1\ndora 2\nbasic 3000\n"), "{open}");
    let honours = answer("readings 2224466mEEE+6m seat=0 ron=3 pon=888m");
    for row in ["yaku  3 value triplet                                  2\n", "yaku 23 one suit and honours                           2\n"]
    {
        assert!(honours.contains(row), "{honours}");
    }
    let yakuman = answer("hand 111m333p555s77s99s+7s seat=1 tsumo indicator=8s --plain");
    assert!(yakuman.contains("\nyaku 30\nhan 0\ndora 0\nbasic 8000\n"), "{yakuman}");
}

#[test]
fn readings_tried() {
    for (hand, tried, row) in [
        ("234567m345p67s22s+8s seat=1 ron=3", 1, "1 reading"),
        ("11222333m456p99s+1m seat=1 ron=3", 4, "4 readings"),
        ("1112222333444m+3m seat=1 ron=3", 12, "12 readings"),
        ("1122233344555m+4m seat=1 tsumo", 7, "7 readings, the last a yakuman"),
        ("19m19p19sESWNPFC+C seat=1 tsumo", 1, "1 reading, a yakuman"),
    ] {
        for command in ["hand", "readings"] {
            let (out, plain) = (answer(&format!("{command} {hand}")), answer(&format!("{command} {hand} --plain")));
            assert!(out.contains(&format!("\nanswer     accepted\ntried      {row}\n")), "{out}");
            assert!(plain.contains(&format!("\ntried {tried}\n")), "{plain}");
        }
    }
    let stopped = answer("readings 1122233344555m+4m seat=1 tsumo");
    assert_eq!(stopped.matches("not tried, 7 is a yakuman").count(), 2, "{stopped}");
    let refused = "456p78s234s99p+9s chi=123m seat=1 ron=3";
    assert!(answer(&format!("hand {refused} --plain")).contains("\ntried 0\n"));
    assert!(!answer(&format!("readings {refused}")).contains("\ntried "));
}

/// The lines of a hand in the plain output of `rotate` or `rename`: before and after the line that begins with the key.
fn two_sides(line: &str, key: &str) -> [Vec<String>; 2] {
    let out = answer(&format!("{line} --plain"));
    let lines: Vec<String> = out.lines().map(String::from).collect();
    let at = lines.iter().position(|line| *line == key).unwrap_or_else(|| panic!("{key} in {out}"));
    assert_eq!(lines.last().map(String::as_str), Some("differences 0"));
    [lines[..at].to_vec(), lines[at + 1..lines.len() - 1].to_vec()]
}

#[test]
fn a_table_rotated() {
    let (closed, open) = ("234567m345p67s22s+8s", "456p78s234s99p+9s chi=123m");
    for (tiles, as_typed, by, rotated, changes) in [
        (closed, "seat=1 ron=3", 1, "seat=2 ron=0 dealer=1", "-2000 0 2000 0"),
        (closed, "seat=1 ron=3", 6, "seat=3 ron=1 dealer=2", "0 -2000 0 2000"),
        (closed, "seat=3 tsumo dealer=2 wind=S", 2, "seat=1 tsumo dealer=0 wind=S", "-1300 2700 -700 -700"),
        (open, "seat=1 ron=3", 3, "seat=0 ron=2 dealer=3", "0 0 0 0"),
    ] {
        let (hand, second) = (format!("{tiles} {as_typed}"), format!("{tiles} {rotated}"));
        let [one, two] = two_sides(&format!("rotate {hand} by={by}"), &format!("rotated {by}"));
        let alone = |words: &str| answer(&format!("hand {words} --plain")).replace("differences 0\n", "");
        assert_eq!([one.join("\n"), two.join("\n")].map(|text| text + "\n"), [alone(&hand), alone(&second)]);
        assert!(two.contains(&format!("changes {changes}")), "{two:?}");
        let moved = |line: &&String| ["notation", "dealer", "record", "changes"].contains(&line.split(' ').next().unwrap_or(""));
        let rest = |lines: &[String]| lines.iter().filter(|line| !moved(line)).cloned().collect::<Vec<_>>();
        assert_eq!(rest(&one), rest(&two));
    }
    let out = answer("rotate 46mPP+5m kan=9999s kan=2222p ankan=EEEE seat=1 tsumo dealer=2 by=3");
    for row in [
        "           as typed                                                          rotated by 3\n",
        "yaku        3 value triplet                                                   3 value triplet\n           19 three kans",
        "fu         90 = 20 + 2 + 16 + 8 + 32 + 2 + 2 + 8                             90 = 20 + 2 + 16 + 8 + 32 + 2 + 2 + 8\n",
        "seat 0     W   -3,000                                                        N  +12,000\n",
        "\nthe changes are moved on by 3 seats, all else is as it was\nboth scorers agree\n",
    ] {
        assert!(out.contains(row), "{row} in\n{out}");
    }
}

#[test]
fn suits_renamed() {
    let hand = "666m3334566p666s+6p seat=3 ron=1 riichi indicator=2p dealer=1 wind=S";
    for (suits, notation) in [
        ("mps", "666m3334566p666s+6p seat=3 ron=1 riichi indicator=2p"),
        ("msp", "666m666p3334566s+6s seat=3 ron=1 riichi indicator=2s"),
        ("pms", "3334566m666p666s+6m seat=3 ron=1 riichi indicator=2m"),
        ("PSM", "666m666p3334566s+6s seat=3 ron=1 riichi indicator=2s"),
        ("smp", "3334566m666p666s+6m seat=3 ron=1 riichi indicator=2m"),
        ("spm", "666m3334566p666s+6p seat=3 ron=1 riichi indicator=2p"),
    ] {
        let [one, two] = two_sides(&format!("rename {hand} suits={suits}"), &format!("renamed {}", suits.to_lowercase()));
        assert_eq!(two[0], format!("notation {notation}"));
        let figures = |lines: &[String]| lines[4..].to_vec();
        assert_eq!(figures(&one), figures(&two), "{suits}");
    }
    let out = answer(&format!("rename {hand} suits=pms"));
    for row in ["renamed m to p, p to m\n", "\nrefusal, h, fu, yaku and changes are as they were\n"] {
        assert!(out.contains(row), "{row} in\n{out}");
    }
    for (hand, suits, promise) in [
        ("22334466688sFF+F seat=1 ron=3", "smp", "all green before: nothing is promised"),
        ("22334466688mFF+F seat=1 ron=3", "spm", "all green after: nothing is promised"),
        ("22334466688sFF+F seat=1 ron=3", "pms", "all green before and after: nothing is promised"),
    ] {
        let out = answer(&format!("rename {hand} suits={suits}"));
        assert!(out.contains(&format!("\n{promise}\nboth scorers agree\n")) && out.contains("34 only sou"), "{out}");
    }
}

#[test]
fn a_hand_that_is_not_rotated() {
    let closed = "234567m345p67s22s+8s seat=1 tsumo";
    for (hand, refusal) in [("b8", 1), (&format!("{closed} chankan"), 5), (&format!("{closed} dealer=4"), 8)] {
        for (command, word) in [("rotate", "by=1"), ("rename", "suits=psm")] {
            let out = answer(&format!("{command} {hand} {word}"));
            assert!(out.contains(&format!("\nanswer     refusal {refusal}, ")), "{out}");
            assert!(out.contains("\na hand that is refused so is not "), "{out}");
            assert_eq!(answer(&format!("{command} {hand} {word} --plain")), answer(&format!("hand {hand} --plain")));
        }
    }
}

#[test]
fn the_worked_logs() {
    let lines = "1 R 0 30000 29000 30000 30000 1\n2 D 0 29000 32000 29000 29000 1\n";
    assert_eq!(answer("tally 01 24 --plain"), lines);
    assert_eq!(answer("log 01 24"), "riichi 1\ndraw 1\n");
    let marked = run_in(Path::new("."), "tally - --plain", "\u{feff}riichi 1\r\n\r\nDRAW 1 # alone\r\n".as_bytes());
    assert_eq!(marked.out, lines);
    let second = format!("10 {LINE_1} 04 31 40");
    let lines = "1 W 0 30000 32000 30000 28000 0\n2 R 8 30000 32000 30000 28000 0\n3 C 0 33000 23000 33000 31000 0\n";
    assert_eq!(answer(&format!("tally {second} --plain")), lines);
    let out = answer(&format!("tally {second} --words"));
    assert!(out.contains("refusal 8, an argument is out of range: seat 4 over 3\n"), "{out}");
    assert!(out.contains("stopped at byte 16, 40: refusal 14, the log's entry is bad or cut: no records or over three\n"), "{out}");
    assert!(out.contains("3 entries, 1 refused; 2 hands finished; E2 is on\n"), "{out}");
    let third = answer(&format!("tally 2f 10 {LINE_1}"));
    let counters: Vec<&str> = third
        .lines()
        .take(3)
        .map(|line| line.split_whitespace().nth(if line.starts_with("entry") { 12 } else { 8 }).unwrap_or(""))
        .collect();
    assert_eq!(counters, ["counter", "1", "0"], "{third}");
    assert_eq!(answer(&format!("tally 2f 10 {LINE_1} --plain")), "1 D 0 30000 30000 30000 30000 0\n2 W 0 30000 32300 30000 27700 0\n");
}

#[test]
fn entries_in_words() {
    let text = "draw 0 1 2 3\nriichi 3\nwin 234567m345p67s22s+8s seat=3 tsumo riichi\nwin b822640210620a31661a9a6bb0\nriichi 9\n\
        multi 234567m345p67s22s+8s seat=0 ron=1 / 111m333p555s77s99s+8s seat=2 ron=1\n\
        draw\npao holder=1 feeder=0 yaku=29\n";
    let ran = run_in(Path::new("."), "tally - --words", text.as_bytes());
    for row in [
        "text\n    1    E1        0  30,000  30,000  30,000  30,000       0        1             draw 0 1 2 3\n             changes       0       0       0       0\n",
        "\n      dealer seat 0, wind E, 0 counters, 0 sticks: a draw, everybody is ready\n",
        "\n      dealer seat 0, wind E, 1 counter, 0 sticks: seat 3 (N) declares riichi\n",
        "\n             changes  -2,700  -1,400  -1,400  +6,500\n",
        "\n      dealer seat 0, wind E, 1 counter, 1 stick: seat 3 (N) wins by tsumo\n",
        "\n      1 tsumo, 2 all simples, 4 pinfu, 10 riichi; h 4, fu 20; gain 5,200, with 1 counter and 1 stick 6,500\n",
        "\n      dealer seat 1, wind E, 0 counters, 0 sticks: a win whose record is not read\n      refusal 2, ",
        "\n      dealer seat 1, wind E, 0 counters, 0 sticks: seat 9 declares riichi\n      refusal 8, ",
        "\n      dealer seat 1, wind E, 0 counters, 0 sticks: a draw, nobody is ready\n",
        "seat 0 (N) wins by ron from seat 1 (E), seat 2 (S) wins by ron from seat 1 (E)\n      refusal ",
        "0 sticks: seat 0 (W) is named as feeder of seat 1 (N), yaku 29 four wind triplets\n",
        "\nstandings: 1 seat 3 with 35,500; 2 seat 1, seat 2 with 28,600; 4 seat 0 with 27,300; 0 sticks on the table\nboth scorers agree\n",
    ] {
        assert!(ran.out.contains(row), "{row} in\n{}", ran.out);
    }
}

#[test]
fn a_sheet_marks_what_is_superseded() {
    let sheet = answer("tally 01 24 60 10 ba1e640210620a31661a9a6bb0 04 60 33 60 2f 02 60 2f --csv");
    let remarks: Vec<String> = sheet.lines().skip(1).map(|row| row.split(',').skip(27).collect::<Vec<_>>().join(",")).collect();
    let (remarks, counts): (Vec<&str>, Vec<&str>) = remarks.iter().map(|row| row.rsplit_once(',').expect("two cells")).unzip();
    assert_eq!(counts, ["1", "0", "0", "0", "0", "1", "1", "0"], "{sheet}");
    let refused = "\"refusal 20, there is no result to supersede: a riichi has been accepted since\"";
    let wanted = ["", "superseded by entry 3", "supersedes entry 2; superseded by entry 5"];
    assert_eq!(remarks[..3], wanted, "{sheet}");
    assert_eq!(remarks[4..], ["supersedes entry 3; superseded by entry 6", "supersedes entry 5", "", refused][..], "{sheet}");
}

#[test]
fn an_evening_as_a_sheet() {
    let log = format!("2f 42 {LINE_1} {} 04 50 70 10 b01684021068a2fbefc10410c2 40", LINE_1.replacen("b8", "d8", 1));
    let sheet = answer(&format!("tally {log} --csv"));
    let rows: Vec<&str> = sheet.lines().collect();
    let wanted = [
        "entry,deal,wind,dealer,kind,seats,how,from,refusal,change 0,change 1,change 2,change 3,score 0,score 1,score 2,score 3,sticks before,counter before,\
            sticks,counter,yaku,h,fu,gain,hands,text,remark,counts",
        "1,E1,E,0,draw,0 1 2 3,,,0,0,0,0,0,30000,30000,30000,30000,0,0,0,1,,,,,1,draw 0 1 2 3,,1",
        "2,E1,E,0,multi,1 and 2,ron,3,0,0,2300,2000,-4300,30000,32300,32000,25700,0,1,0,0,2 4 and 2 4,2 and 2,30 and 30,2000 and 2000,2,\
            multi 234567m345p2267s+8s seat=1 ron=3 indicator=N / 234567m345p2267s+8s seat=2 ron=3 indicator=N,sticks and counters are seat 1's,1",
        "3,E2,E,1,riichi,4,,,8,0,0,0,0,30000,32300,32000,25700,0,0,0,0,,,,,2,riichi 4,\"refusal 8, an argument is out of range: seat 4 over 3\",0",
        "4,E2,E,1,pao,1,,3,0,0,0,0,0,30000,32300,32000,25700,0,0,0,0,,,,,2,pao holder=1 feeder=3 yaku=28,,1",
    ];
    assert_eq!(rows[..5], wanted);
    assert!(
        rows[5].starts_with("5,E2,E,1,win,1,ron,2,0,0,48000,-24000,-24000,30000,80300,8000,1700,0,0,0,1,28,0,0,48000,3,win 234m"),
        "{sheet}"
    );
    assert!(rows[6].starts_with(",,,,stopped,,,,14,") && rows[6].ends_with(",0") && rows.len() == 7, "{sheet}");
    for row in &rows {
        let quoted = row.split('"').step_by(2).map(|part| part.matches(',').count());
        assert_eq!(quoted.sum::<usize>(), rows[0].matches(',').count(), "{row}");
    }
    let ran = run_in(Path::new("."), "tally 01 --csv --say en", &[]);
    assert_eq!(
        (ran.status, ran.err.as_str()),
        (2, "tester: --csv and --say: a sheet has no place for what is said, leave one of them out\n")
    );
}

#[test]
fn refusals_of_entries_say_which_condition_was_met() {
    let text = "riichi 1\nriichi 1\nwin 234567m345p67s22s+8s seat=1 ron=3\n\
        WIN 234567m345p67s22s+8s seat=2 ron=3 double # no riichi of seat 2\nwin b822640210620a31661a9a6bb0\nchombo 9\n";
    let ran = run_in(Path::new("."), "tally - --plain --words", text.as_bytes());
    let words: Vec<&str> = ran.out.lines().map(|line| line.splitn(9, ' ').nth(8).unwrap_or("")).collect();
    let wanted = [
        "",
        "refusal 10, declared already this hand: seat 1",
        "refusal 11, the riichi field and the declaration differ: seat 1 has declared, the record has no riichi",
        "refusal 11, the riichi field and the declaration differ: the record has riichi, seat 2 has not declared",
        "refusal 2, a field is out of range: indicator over 33",
        "refusal 8, an argument is out of range: seat 9 over 3",
    ];
    assert_eq!((ran.status, words), (0, wanted.to_vec()), "{}", ran.out);
    for (deals, why) in [("draw\n".repeat(8), "it is over"), ("draw 0\n".repeat(200), "200 hands are finished")] {
        let ran = run_in(Path::new("."), "tally - --plain --words", format!("{deals}riichi 0\n").as_bytes());
        assert!(ran.out.ends_with(&format!(" refusal 9, the game is not open: {why}\n")), "{}", ran.out);
    }
}

#[test]
fn a_seat_without_the_points_for_a_stick() {
    let marked = LINE_1.replacen("b8", "ba", 1);
    let log = format!("31 31 31 31 01 10 {marked} 10 {LINE_1}");
    let lines = "5 R 21 42000 -6000 42000 42000 0 refusal 21, the seat has no 1,000 points for the stick: seat 1 has -6,000\n\
        6 W 11 42000 -6000 42000 42000 0 refusal 11, the riichi field and the declaration differ: the record has riichi, seat 1 has not declared\n\
        7 W 0 42000 -4000 42000 40000 0\n";
    let out = answer(&format!("tally {log} --plain --words"));
    assert!(out.ends_with(lines), "{out}");
    // 3,000 after three chombos: two draws, then a riichi with 1,000, with none left, and in the next hand.
    let out = answer("tally 31 31 31 28 28 01 01 2f 01 --plain --words");
    let lines = "5 D 0 45000 1000 37000 37000 0\n6 R 0 45000 0 37000 37000 1\n7 R 10 45000 0 37000 37000 1 refusal 10, declared already this hand: seat 1\n\
        8 D 0 45000 0 37000 37000 1\n9 R 21 45000 0 37000 37000 1 refusal 21, the seat has no 1,000 points for the stick: seat 1 has 0\n";
    assert!(out.ends_with(lines), "{out}");
}

#[test]
fn a_draw_with_a_declared_seat_that_is_not_ready_is_a_chombo() {
    let log = "01 03 29 00 01 02 03 20 01 24";
    let lines = "1 R 0 30000 29000 30000 30000 1\n2 R 0 30000 29000 30000 29000 2\n\
        3 D 0 33000 21000 33000 33000 0 a chombo, declared and not ready: seat 1\n\
        4 R 0 32000 21000 33000 33000 1\n5 R 0 32000 20000 33000 33000 2\n6 R 0 32000 20000 32000 33000 3\n7 R 0 32000 20000 32000 32000 4\n\
        8 D 0 33000 21000 33000 33000 0 a chombo, declared and not ready: seat 0; seat 1; seat 2; seat 3\n\
        9 R 0 33000 20000 33000 33000 1\n10 D 0 32000 23000 32000 32000 1\n";
    assert_eq!(answer(&format!("tally {log} --plain --words")), lines);
    let out = answer(&format!("tally {log} --words"));
    assert!(out.contains("\n      a chombo, declared and not ready: seat 1\n"), "{out}");
    assert!(out.contains("10 entries, 0 refused; 3 hands finished; E2 is on\n"), "{out}");
}

/// Three dragon triplets of seat 1: its record by tsumo.
const DRAGONS: &str = "201684021068a2fbefc10410c2";

#[test]
fn a_win_paid_by_pao() {
    let dragons = "234m99pPPPFFFCC+C seat=1";
    for (how, changes, words) in [
        ("tsumo", "30000 62000 30000 -2000", "pao: seat 3, the feeder of seat 1's yaku 28, pays the whole, with the counters"),
        (
            "ron=2",
            "30000 62000 14000 14000",
            "pao: seat 3, the feeder of seat 1's yaku 28, pays half, seat 2 the other half and the counters",
        ),
        ("ron=3", "30000 62000 30000 -2000", "pao: seat 3, the feeder of seat 1's yaku 28, pays all, as the discarder too"),
    ] {
        let text = format!("PAO yaku=28 holder=1 feeder=3\nwin {dragons} {how} indicator=5s\n");
        let ran = run_in(Path::new("."), "tally - --plain --words", text.as_bytes());
        assert_eq!(ran.out, format!("1 P 0 30000 30000 30000 30000 0\n2 W 0 {changes} 0 {words}\n"));
        let out = run_in(Path::new("."), "tally - --words", text.as_bytes()).out;
        assert!(out.contains(&format!("\n      {words}\n")), "{out}");
        for row in
            ["  counter  pao        text\n", "        0  3 to 1 28  pao holder=1 feeder=3 yaku=28\n", "        0             win 234m99p"]
        {
            assert!(out.contains(row), "{row} in\n{out}");
        }
    }
    let log = format!("50 70 10 {DRAGONS} 50 50 50 68 50 78 51");
    let lines = "1 P 0 30000 30000 30000 30000 0\n2 W 0 30000 62000 30000 -2000 0 pao: seat 3, the feeder of seat 1's yaku 28, pays the whole, with the counters\n\
        3 P 18 30000 62000 30000 -2000 0 refusal 18, the pao does not fit, or is named already: seat 1 is holder and feeder\n\
        4 P 0 30000 62000 30000 -2000 0\n\
        5 P 18 30000 62000 30000 -2000 0 refusal 18, the pao does not fit, or is named already: seat 2 is named for yaku 29 of seat 1\n";
    assert_eq!(answer(&format!("tally {log} --plain --words")), lines);
    let text = "pao holder=1 feeder=3 yaku=28\nwin 234m99pPPPFFFCC+C seat=1 tsumo indicator=5s\npao holder=1 feeder=1 yaku=28\n\
        pao holder=1 feeder=2 yaku=29\npao holder=1 feeder=3 yaku=29\nbytes 51  # refusal 14, the log's entry is bad or cut: pao argument not 0\n";
    assert_eq!(answer(&format!("log {log}")), text);
    for (log, why) in
        [("50", "bytes missing"), ("50 71", "a zero bit of a pao set"), ("5f 70", "pao argument not 0"), ("70", "kind over 6")]
    {
        let out = answer(&format!("tally {log}"));
        assert!(out.contains(&format!(": refusal 14, the log's entry is bad or cut: {why}\n")), "{out}");
    }
}

#[test]
fn a_multiple_ron() {
    let two = LINE_1.replacen("b8", "d8", 1);
    let log = format!("2f 42 {LINE_1} {two} 41 {} 4f", LINE_1.replacen("b8", "20", 1));
    let lines = "1 D 0 30000 30000 30000 30000 0\n2 M 0 30000 32300 32000 25700 0 sticks and counters are seat 1's\n\
        3 M 17 30000 32300 32000 25700 0 refusal 17, the hands are no rons on one tile, or none or over three: a record isn't ron\n";
    assert_eq!(answer(&format!("tally {log} --plain --words")), lines);
    let hand = "234567m345p2267s+8s";
    let text = format!(
        "draw 0 1 2 3\nmulti {hand} seat=1 ron=3 indicator=N / {hand} seat=2 ron=3 indicator=N\nmulti {hand} seat=1 tsumo indicator=N\n\
        bytes 4f  # refusal 14, the log's entry is bad or cut: no records or over three\n"
    );
    assert_eq!(answer(&format!("log {log}")), text);
    let back = run_in(Path::new("."), "log - --plain", text.as_bytes());
    assert_eq!(back.out.trim_end(), log.replace(' ', ""));
    for (log, why) in [
        ("40".into(), "no records or over three"),
        ("44".into(), "no records or over three"),
        (format!("42 {LINE_1}"), "bytes missing"),
        (format!("42 {LINE_1} {}", &two[..24]), "bytes missing"),
        (format!("42 {LINE_1} {}", two.replace("6402", "6782")), "m over 4"),
    ] {
        let out = answer(&format!("tally {log}"));
        assert!(out.contains(&format!(": refusal 14, the log's entry is bad or cut: {why}\n")), "{out}");
    }
}

#[test]
fn refusals_of_a_multiple_ron_say_which_record_meets_them() {
    let hand = "234567m345p67s22s+8s";
    for (text, words) in [
        (
            format!("{hand} seat=1 ron=3 / {hand} seat=1 ron=3"),
            "17, the hands are no rons on one tile, or none or over three: two have one winner",
        ),
        (
            format!("{hand} seat=1 ron=3 / {hand} seat=2 ron=0 last / 234567m345p78s22s+6s seat=0 ron=3 indicator=E"),
            "17, the hands are no rons on one tile, or none or over three: they differ in discarder; they differ in winning tile; \
            they differ in indicator; they differ in situation",
        ),
        (
            format!("{hand} seat=1 ron=3 / {hand} seat=2 ron=3 rinshan"),
            "5, riichi or situation does not fit the hand: record 2: rinshan on ron; record 2: rinshan without a kan",
        ),
        (format!("{hand} seat=1 ron=3 / 456p79s234s99p+8s chi=123m seat=2 ron=3"), "7, readings but none with a yaku: record 2: 1 reading"),
        (
            format!("{hand} seat=1 ron=3 riichi / 456p79s234s99p+8s chi=123m seat=2 ron=3"),
            "11, the riichi field and the declaration differ: record 1: the record has riichi, seat 1 has not declared",
        ),
    ] {
        let ran = run_in(Path::new("."), "tally - --plain --words", format!("multi {text}\n").as_bytes());
        let refusal: &str = words.split(',').next().unwrap_or("");
        assert_eq!(ran.out, format!("1 M {refusal} 30000 30000 30000 30000 0 refusal {words}\n"));
    }
    let pao = "pao holder=0 feeder=1 yaku=28\npao holder=2 feeder=0 yaku=28\nMULTI 234m99pPPPFFFCC+C seat=2 ron=3 indicator=5s / 234m99pPPPFFFCC+C seat=0 ron=3 indicator=5s\n";
    let ran = run_in(Path::new("."), "tally - --plain --words", pao.as_bytes());
    let last = "3 M 0 62000 6000 62000 -10000 0 sticks and counters are seat 0's; pao: seat 0, the feeder of seat 2's yaku 28, pays half, seat 3 the other half; \
        pao: seat 1, the feeder of seat 0's yaku 28, pays half, seat 3 the other half\n";
    assert!(ran.out.ends_with(last), "{}", ran.out);
}

#[test]
fn results_put_right() {
    let marked = LINE_1.replacen("b8", "ba", 1);
    let log = format!("01 24 60 10 {marked} 60 33 02 60 2f 60 02");
    let lines = "1 R 0 30000 29000 30000 30000 1\n2 D 0 29000 32000 29000 29000 1\n3 X 0 30000 33900 30000 26100 0 supersedes entry 2\n\
        4 X 0 33000 33000 33000 21000 0 supersedes entry 3\n5 R 0 33000 33000 32000 21000 1\n\
        6 X 20 33000 33000 32000 21000 1 refusal 20, there is no result to supersede: a riichi has been accepted since\n";
    assert_eq!(answer(&format!("tally {log} --plain --words")), lines);
    let text = "riichi 1\ndraw 1\ncorrect win 234567m345p2267s+8s seat=1 ron=3 riichi indicator=N\ncorrect chombo 3\nriichi 2\ncorrect draw 0 1 2 3\n\
        bytes 6002  # refusal 14, the log's entry is bad or cut: a correction of no win, draw, chombo or multiple ron\n";
    assert_eq!(answer(&format!("log {log}")), text);
    let back = run_in(Path::new("."), "log - --plain", text.replace("correct", "CORRECT").replace("T win", "T Win").as_bytes());
    assert_eq!(back.out.trim_end(), log.replace(' ', ""), "{}", back.err);
    let out = answer(&format!("tally {log} --words"));
    for row in
        ["    3    E1        0  30,000  33,900  30,000  26,100       0        0  correct win 234567m", "\n      supersedes entry 2\n"]
    {
        assert!(out.contains(row), "{row} in\n{out}");
    }
    // The deal of a correction is that of the result which it supersedes; so are declared seats, feeders and counters.
    let text = "draw 0\nriichi 2\npao holder=1 feeder=3 yaku=28\ndraw 2\ncorrect win 234m99pPPPFFFCC+C seat=1 ron=0 indicator=5s\n\
        riichi 9\ncorrect draw\ncorrect multi 234567m345p67s22s+8s seat=1 ron=3 / 234567m345p67s22s+8s seat=0 ron=3\npao holder=1 feeder=3 yaku=28\ncorrect draw 1\n";
    let ran = run_in(Path::new("."), "tally - --words", text.as_bytes());
    for row in [
        "    4    E1        0   32,000   28,000  31,000   28,000       1        2             draw 2\n",
        "    5    E1        0   16,700   62,300  28,000   13,000       0        0             correct win",
        "\n             changes  -16,300  +33,300       0  -16,000\n",
        "\n      supersedes entry 4; pao: seat 3, the feeder of seat 1's yaku 28, pays half, seat 0 the other half and the counters\n",
        "\n      supersedes entry 5; a chombo, declared and not ready: seat 2\n",
        "\n      supersedes entry 7; sticks and counters are seat 0's\n",
        "\n      refusal 20, there is no result to supersede: a pao has been accepted since\n",
    ] {
        assert!(ran.out.contains(row), "{row} in\n{}", ran.out);
    }
    let text = "correct draw\nriichi 1\ndraw 1\ncorrect chombo 4\ncorrect win 234567m345p67s22s+8s seat=1 ron=3\ncorrect multi 456p79s234s99p+8s chi=123m seat=2 ron=3\n";
    let ran = run_in(Path::new("."), "tally - --plain --words", text.as_bytes());
    let words: Vec<&str> = ran.out.lines().map(|line| line.splitn(9, ' ').nth(8).unwrap_or("")).collect();
    let wanted = [
        "refusal 20, there is no result to supersede: nothing is booked yet",
        "",
        "",
        "refusal 8, an argument is out of range: seat 4 over 3",
        "refusal 11, the riichi field and the declaration differ: seat 1 has declared, the record has no riichi",
        "refusal 7, readings but none with a yaku: record 1: 1 reading",
    ];
    assert_eq!(words, wanted, "{}", ran.out);
    let whole = format!("{}correct chombo 0\nriichi 1\n", "draw\n".repeat(8));
    let ran = run_in(Path::new("."), "tally - --words", whole.as_bytes());
    assert!(ran.out.contains("10 entries, 0 refused; 8 hands finished; S4 is on\n"), "{}", ran.out);
    for (log, why) in [
        ("60".into(), "bytes missing"),
        ("61 20".into(), "correction argument not 0"),
        ("60 01".into(), "a correction of no win, draw, chombo or multiple ron"),
        ("60 50 70".into(), "a correction of no win, draw, chombo or multiple ron"),
        ("60 60 20".into(), "a correction of no win, draw, chombo or multiple ron"),
        ("60 44".into(), "no records or over three"),
        ("60 11".into(), "win argument not 0"),
        (format!("60 10 {}", &LINE_1[..24]), "bytes missing"),
        (format!("60 10 {}", LINE_1.replace("6402", "6782")), "m over 4"),
    ] {
        let out = answer(&format!("tally {log}"));
        assert!(out.contains(&format!(": refusal 14, the log's entry is bad or cut: {why}\n")), "{out}");
    }
}

#[test]
fn logs_to_text_and_back() {
    let here = folder("logs");
    let league = fs::read(root().join("crates/tally/stdin")).expect("the league's log");
    let logs = (0..6).map(|seed| example(seed, if seed % 2 == 0 { End::Deal } else { End::Hands }));
    for log in logs.chain([league, vec![], vec![0x10, 1, 2], vec![0x21, 0x30], b"AB".to_vec()]) {
        fs::write(here.join("a.log"), &log).expect("a file");
        let made = run_in(&here, "log a.log as=bytes to=a.txt over=yes", &[]);
        assert_eq!((made.status, made.err.as_str()), (0, ""));
        assert_eq!(run_in(&here, "log a.txt to=b.log over=yes --plain", &[]).out, "");
        assert_eq!(fs::read(here.join("b.log")).expect("a file"), log);
        for line in ["tally a.txt --plain", "tally a.log --bytes --plain"] {
            assert_eq!(run_in(&here, line, &[]).out, tally_lines(&log), "{line}");
        }
        let hex = run_in(&here, "log a.txt --plain", &[]).out;
        assert_eq!(run_in(&here, "tally - --plain", hex.as_bytes()).out, tally_lines(&log));
    }
}

#[test]
fn a_log_past_the_limit_says_where_the_cut_is() {
    let win = [vec![0x10], from_hex(LINE_1).expect("digits")].concat();
    let reads = |n: &str, cut: &str| format!("the log has {n} bytes, and a game is read from the first 65,536: the cut is {cut}\n");
    for (log, said, last) in [
        (win.repeat(5000), reads("70,000", "in entry 4682, which begins at byte 65534"), "4681 entries, "),
        (vec![1; 65_537], reads("65,537", "after entry 65536"), "65536 entries, "),
        ([&[1; 9][..], &[0xff; 65_530]].concat(), reads("65,539", "past byte 9, where 14 ends the log"), "9 entries, "),
    ] {
        let run = |words: &str| run_in(Path::new("."), words, &log);
        let out = run("tally - as=bytes").out;
        assert!(out.contains(&format!("\n{said}{last}")), "{said}");
        assert!(run("log - as=bytes").out.starts_with(&format!("# standard input: read as bytes\n# {said}")), "{said}");
        let out = run("damage log - as=bytes random=1").out;
        assert!(out.starts_with(&format!("standard input: read as bytes\n{said}log of 65536 bytes, {last}")), "{out}");
        for words in ["tally - as=bytes --plain", "damage log - as=bytes random=1 --plain"] {
            assert_eq!(run(words).err, format!("tester: {said}"), "{words}");
        }
    }
    let whole = run_in(Path::new("."), "tally - as=bytes --plain", &[1; 65_536]);
    assert_eq!((whole.err.as_str(), whole.out.lines().count()), ("", 65_536));
}

#[test]
fn a_file_that_exists_is_written_over_only_when_told_so() {
    let here = folder("over");
    let holds = |name: &str| fs::read(here.join(name)).expect("a file");
    fs::write(here.join("evening.txt"), "riichi 1\n").expect("a file");
    let _ = fs::remove_file(here.join("new.log"));
    for file in ["evening.txt", "./evening.txt", "../over/evening.txt"] {
        let ran = run_in(&here, &format!("log evening.txt to={file}"), &[]);
        let why = format!("tester: to={file}: this file exists; take another name, or write over=yes to lose what it holds\n");
        assert_eq!((ran.status, ran.out, ran.err, holds("evening.txt")), (2, String::new(), why, b"riichi 1\n".to_vec()));
    }
    for (word, made) in [("", 0), ("", 2), ("over=yes", 0)] {
        assert_eq!(run_in(&here, &format!("log evening.txt to=new.log {word}"), &[]).status, made);
        assert_eq!(holds("new.log"), [1]);
    }
    let ran = run_in(&here, "log evening.txt to=evening.txt over=yes", &[]);
    assert_eq!((ran.status, ran.out.as_str()), (0, "evening.txt: read as text\nevening.txt: 1 byte\n"));
    assert_eq!(holds("evening.txt"), [1]);
}

#[test]
fn a_file_is_read_as_text_hex_or_bytes_and_the_tool_says_so() {
    let here = Path::new(".");
    let chombos = "1 C 0 21000 33000 33000 33000 0\n2 C 0 24000 24000 36000 36000 0\n";
    for (word, input, form, entry) in [
        ("", &b"riichi 1\n"[..], "text", "riichi 1"),
        ("as=text", b"riichi 1\n", "text", "riichi 1"),
        ("", b"01\n", "hex", "riichi 1"),
        ("", b"# digits\n01 # one entry\n", "hex", "riichi 1"),
        ("as=hex", b"01\n", "hex", "riichi 1"),
        ("", b"\x01", "bytes", "riichi 1"),
        ("as=bytes", b"\x01", "bytes", "riichi 1"),
        ("--bytes", b"\x2c", "bytes", "draw 0 1"),
        ("", b"bytes 40\n", "text", "bytes 40  # refusal 14, the log's entry is bad or cut: no records or over three"),
    ] {
        let said = format!("standard input: read as {form}\n");
        for command in ["tally", "log", "damage log"] {
            let ran = run_in(here, &format!("{command} - {word}"), input);
            assert!(ran.status == 0 && ran.out.trim_start_matches("# ").starts_with(&said), "{command}: {ran:?}");
            assert!(!run_in(here, &format!("{command} - {word} --plain"), input).out.contains("read as"), "{command}");
        }
        let text = run_in(here, &format!("log - {word}"), input).out;
        assert!(form == "text" || text == format!("# {said}{entry}\n"), "{text}");
    }
    assert_eq!(run_in(here, "tally - as=bytes --plain", b"01").out, chombos);
}

#[test]
fn damage_counts_refusals() {
    let out = answer(&format!("damage hand {LINE_1} --plain"));
    let counts = "bit-changed 104 10 3 18 46 0 2 25\ncut 13 0 13 0 0 0 0 0\nbytes-swapped 78 0 12 40 24 0 0 2\n";
    let rest = " 0".repeat(15) + "\n"; // refusals 7 to 21
    assert_eq!(out, counts.replace('\n', &rest) + "differences 0\n");
    let some = answer(&format!("damage hand {LINE_1} random=3000 seed=4 --plain"));
    assert!(some.starts_with("random 3000 ") && some.ends_with("differences 0\n"), "{some}");
    assert_eq!(answer(&format!("damage hand {LINE_1} random=3000 seed=4 --plain")), some);
    assert_ne!(answer(&format!("damage hand {LINE_1} random=3000 --plain")), some);
    let log = answer(&format!("damage log 01 02 10 {LINE_1} 24 31"));
    assert!(log.contains("14 ends a walk") && log.ends_with("both scorers agree\n"), "{log}");
}

#[test]
fn damage_shows_what_was_accepted() {
    let out = answer(&format!("damage hand {LINE_1} --show"));
    let (_, shown) = out.split_once("\n\n10 changes accepted\n").expect("a list");
    assert_eq!(shown.lines().filter(|line| line.starts_with("bit changed  bit ")).count(), 10, "{out}");
    assert!(shown.starts_with("bit changed  bit 2, byte 0 b8 to 98   234567m345p2267s+8s seat=0 ron=3 indicator=N\n"), "{out}");
    assert!(!answer(&format!("damage hand {LINE_1}")).contains("changes accepted"));
    let plain = answer(&format!("damage hand {LINE_1} --show --plain"));
    let copies: Vec<&str> = plain.lines().filter_map(|line| line.strip_prefix("accepted bit-changed ")).collect();
    assert_eq!((copies.len(), copies[0]), (10, "2 981e640210620a31661a9a6bb0"));
    for copy in copies {
        let record = copy.split(' ').nth(1).expect("a record");
        assert!(answer(&format!("hand {record} --plain")).contains("\nrefusal 0\n"), "{record}");
    }
    let log = answer("damage log 01 24 31 --show");
    for line in [
        "16 changes accepted",
        "bit changed    bit 13, byte 1 24 to 20  entry 2, draw 1, became draw",
        "cut            to 1 byte                the log ends before entry 2",
        "bytes swapped  byte 0 01 and byte 2 31  entry 1, riichi 1, became chombo 1",
    ] {
        assert!(log.lines().any(|shown| shown == line), "{line}: {log}");
    }
    assert!(answer("damage log 40 --show").contains("cut          to 0 bytes              the entries are as they were\n"));
    let random = answer("damage log 01 24 31 random=100 --show --plain");
    let logs: Vec<&str> = random.lines().filter(|line| line.starts_with("accepted random ")).collect();
    assert!(!logs.is_empty());
    for log in logs.into_iter().filter_map(|line| line.split(' ').nth(3)).filter(|log| !log.is_empty()) {
        assert!(!answer(&format!("tally {log}")).contains("refusal 14"), "{log}");
    }
}

#[test]
fn help_for_the_tool_and_each_command() {
    let tool = answer("--help");
    for command in ["hand", "readings", "rotate", "rename", "slip", "waits", "ready", "cards", "judge", "say", "log", "tally", "damage"] {
        assert!(tool.contains(&format!("\n  {command} ")));
        let help = answer(&format!("{command} --help"));
        assert!(help.starts_with(&format!("tester {command} ")) && help.contains("--plain"));
        assert_eq!(answer(&format!("help {command}")), help);
    }
}
