//! Bad input: exit status 2 and one line that names the word and its place.

mod run;

use run::{folder, run_in};

/// A command line fails with this line alone.
fn fails(line: &str, input: impl AsRef<[u8]>, message: &str) {
    let ran = run_in(&folder("errors"), line, input.as_ref());
    assert_eq!((ran.status, ran.out.as_str(), ran.err.as_str()), (2, "", format!("tester: {message}\n").as_str()), "{line}");
}

#[test]
fn of_the_tool() {
    fails("", "", "no command: hand, readings, rotate, rename, slip, waits, ready, cards, judge, say, log, tally, damage, draft, game or clips; --help says more");
    fails("hands", "", "word 1, \"hands\": no command; there are hand, readings, rotate, rename, slip, waits, ready, cards, judge, say, log, tally, damage, draft, game and clips");
}

#[test]
fn of_cards() {
    for (words, message) in [
        ("", "after word 1, \"cards\": no suit, such as m"),
        ("m", "after word 2, \"m\": no number of tiles: 2, 5 or 8"),
        ("z 2", "word 2, \"z\": a suit m, p or s is needed (a number up to 255 to see it refused)"),
        ("m 256", "word 3, \"256\": 2, 5 or 8 tiles are needed (a number up to 255 to see it refused)"),
        ("m 2 3", "word 4, \"3\": one word too many"),
        ("m 2 buffer=65537", "word 4, \"buffer=65537\": a number 0 to 65536 is needed"),
        ("m 2 --loud", "word 4, \"--loud\": no option here; --help lists them"),
    ] {
        fails(&format!("cards {words}"), "", message);
    }
}

#[test]
fn of_a_hand() {
    let tiles = "234567m345p67s22s+8s";
    for command in ["hand", "readings", "slip", "judge"] {
        for (words, message) in [
            ("", format!("after word 1, \"{command}\": no hand, such as {tiles} seat=1 ron=3")),
            ("b81", "word 2, \"b81\": two hexadecimal digits make a byte, one is left over".into()),
            ("b81g64", "word 2, \"b81g64\": neither tiles with + before the winning one nor hexadecimal digits".into()),
            (&format!("{tiles} seat=1"), "after word 3, \"seat=1\": tsumo or ron=, such as ron=3, is missing".into()),
            (&format!("{tiles} ron=3"), "after word 3, \"ron=3\": the winner is missing, such as seat=1".into()),
            (&format!("{tiles} seat=5 ron=3"), "word 3, \"seat=5\": a seat is 0, 1, 2 or 3, or E S W N by the first deal's winds".into()),
            (&format!("{tiles} seat=01 ron=3"), "word 3, \"seat=01\": a seat is one digit; put spaces between seats".into()),
            (&format!("{tiles} seat=1 ron=3 dealer=+1"), "word 5, \"dealer=+1\": a seat 0 to 3, or E S W N by the first deal's winds, is needed (a number up to 255 to see it refused)".into()),
            (&format!("{tiles} seat=1 ron=3 dora=4z"), "word 5, \"dora=4z\": the tile turned up is indicator=, dora is the next one".into()),
            (&format!("{tiles} seat=1 ron=3 --plian"), "word 5, \"--plian\": no option here; --help lists them".into()),
            (&format!("{tiles} seat=1 ron=3 dealer=x"), "word 5, \"dealer=x\": a seat 0 to 3, or E S W N by the first deal's winds, is needed (a number up to 255 to see it refused)".into()),
            (&format!("{tiles} seat=1 ron=3 wind=X"), "word 5, \"wind=X\": E, S, 0 or 1 is needed (a number up to 255 to see it refused)".into()),
            (&format!("{tiles} dealer=1 seat=1 ron=3 dealer=1"), "word 6, \"dealer=1\": an earlier word has said this already".into()),
            (&format!("{tiles} seat=1 ron=3 reach"), "word 5, \"reach\": the word is riichi".into()),
            (&format!("{tiles} seat=1 ron=3 ippatsu"), "word 5, \"ippatsu\": there is no ippatsu in these rules, leave the word out".into()),
            ("234567m345p67s+8s pong=222m seat=1 ron=3", "word 3, \"pong=222m\": the word is pon, such as pon=222m".into()),
            ("234067m345p67s22s+8s seat=1 ron=3", "word 2, \"234067m345p67s22s+8s\": sign 4 of \"234067m345p67s22s\", 0: there are no red fives here, write 5".into()),
            ("b81e640210620a31661a9a6bb0 seat=2", "word 3, \"seat=2\": the record's bytes say this already, leave the word out (dealer= and wind= may stand beside them)".into()),
            ("b81e 640210620a31661a9a6bb0 riichi", "word 4, \"riichi\": the record's bytes say this already, leave the word out (dealer= and wind= may stand beside them)".into()),
            ("234567m345p67s2s+8s seat=1 ron=3", "word 2, \"234567m345p67s2s+8s\": 12 tiles before +, with 0 melds 13 are needed".into()),
        ] {
            fails(&format!("{command} {words}"), "", &message);
        }
    }
}

#[test]
fn of_a_rotation_and_a_renaming() {
    let hand = "234567m345p67s22s+8s seat=1 ron=3";
    fails(&format!("rotate {hand}"), "", "after word 4, \"ron=3\": the number of seats is missing, such as by=1");
    fails(&format!("rename {hand}"), "", "after word 4, \"ron=3\": what the suits become is missing, such as suits=psm");
    fails("rotate by=1", "", "after word 2, \"by=1\": no hand, such as 234567m345p67s22s+8s seat=1 ron=3");
    for by in ["", "x", "-1"] {
        let message = format!("word 5, \"by={by}\": a number of seats, such as 1, is needed");
        fails(&format!("rotate {hand} by={by}"), "", &message);
    }
    for suits in ["", "m", "mpp", "psmm", "mpz"] {
        let message = format!("word 5, \"suits={suits}\": what m, p and s become is needed, such as psm");
        fails(&format!("rename {hand} suits={suits}"), "", &message);
    }
}

#[test]
fn of_a_claim() {
    let hand = "234567m345p67s22s+8s seat=1 ron=3";
    let such = "such as claim=regular pair=55s groups=123m,123m,789p,789p place=pair gain=5200";
    for (words, message) in [
        ("claim=hex", "word 5, \"claim=hex\": regular, pairs, orphans, or the claim's bytes in hexadecimal, is needed".to_string()),
        ("claim=40c", "word 5, \"claim=40c\": regular, pairs, orphans, or the claim's bytes in hexadecimal, is needed".into()),
        ("claim=pairs", "gain= is missing, what the winner is said to gain, such as gain=5200".into()),
        ("claim=pairs gain=131072", "word 6, \"gain=131072\": what the winner gains is needed, a number up to 131071".into()),
        ("claim=pairs gain=1 pair=55s", "seven pairs and orphans have no pair=, groups= or place=, leave them out".into()),
        ("claim=regular gain=1 pair=55s", format!("pair=, groups= and place= are needed, {such}")),
        ("gain=1", format!("claim= is missing, {such}")),
        ("claim=40c800 gain=1", "claim=HEX has the whole claim: leave pair=, groups=, place= and gain= out".into()),
        ("claim=regular pair=55s groups=123m,789p,789p place=0 gain=1", "groups= has 3 groups, with 0 melds 4 are needed".into()),
        (
            "claim=regular pair=55s groups=123m,123m,789p,789p place=5 gain=1",
            "place=5: the claim has 4 groups, melds left out".into(),
        ),
        ("claim=regular pair=56s", "word 6, \"pair=56s\": two equal tiles are needed, such as 55s".into()),
        ("claim=regular groups=123m,89p1s", "word 6, \"groups=123m,89p1s\": 89p1s: three neighbours of a suit or three equal tiles are needed, such as 123m or EEE".into()),
        ("claim=regular groups=111m,222m,333m,444m,555m", "word 6, \"groups=111m,222m,333m,444m,555m\": at most four groups, melds left out".into()),
        ("claim=regular groups=111m place=222m", "word 7, \"place=222m\": the place, what the winning tile completes, is needed: pair, or one of the groups, such as 123m, or its number from 1".into()),
    ] {
        fails(&format!("judge {hand} {words}"), "", &message);
    }
    fails(
        "judge 1111m44m77m22p55p8p+8p seat=1 ron=3",
        "",
        "no reading of the hand is reported, so claim= is needed: in words, such as claim=pairs gain=1600, or claim=HEX",
    );
}

#[test]
fn of_an_unfinished_hand() {
    let tiles = "567m22456p67s";
    for (words, message) in [
        ("record=b81e 567m", "word 3, \"567m\": record= has this already, leave the word out".to_string()),
        ("record=b81e riichi", "word 3, \"riichi\": record= has this already, leave the word out".to_string()),
        ("record=b81", "word 2, \"record=b81\": b81: two hexadecimal digits are needed for each byte".to_string()),
        ("record=b8 1e 6", "word 2, \"record=b81e6\": b81e6: two hexadecimal digits are needed for each byte".to_string()),
        ("record=", "word 2, \"record=\": the record's bytes are missing, such as record=b81e640210620a31661a9a6bb0".to_string()),
        ("", "after word 1, \"waits\": no hand, such as 567m22456p67s chi=234m".to_string()),
        ("20a", "word 2, \"20a\": two hexadecimal digits make a byte, one is left over".into()),
        ("202", "word 2, \"202\": digits alone are bytes, two digits for each; tiles have a suit m, p, s or z behind their digits".into()),
        (tiles, format!("after word 2, \"{tiles}\": 10 tiles, with 0 melds 13 are needed")),
        (&format!("{tiles} chi=234m pon=EEE"), "after word 4, \"pon=EEE\": 10 tiles, with 2 melds 7 are needed".into()),
        (&format!("{tiles} chi=89m1p"), "word 3, \"chi=89m1p\": three neighbours of one suit, such as 234m, are needed".into()),
        (&format!("{tiles} chi=234m ron=1"), "word 4, \"ron=1\": an unfinished hand is its tiles and melds, leave the word out".into()),
        ("20220a31451869cbb0 chi=234m", "word 3, \"chi=234m\": the hand's bytes say this already, leave the word out".into()),
        (&format!("{tiles} chi=234m discards=8"), "word 4, \"discards=8\": the last digits of \"8\" have no suit m, p, s or z".into()),
        (&format!("{tiles} chi=234m kinds=1"), "word 4, \"kinds=1\": 1: two hexadecimal digits are needed for each byte".into()),
        (&format!("{tiles} chi=234m kinds=19 discards=8s"), "discards= and kinds= say the same, one of them is enough".into()),
        (
            &format!("{tiles} chi=234m seat=1 indicator=2p discards=22p"),
            "5 of 2p among hand, discards and indicator, and there are four".into(),
        ),
        (&format!("{tiles} chi=234m --plian"), "word 4, \"--plian\": no option here; --help lists them".into()),
    ] {
        fails(&format!("waits {words}"), "", &message);
    }
}

#[test]
fn of_what_is_said() {
    let hand = "234567m345p67s22s+8s seat=1 ron=3";
    for (words, message) in [
        ("", "after word 1, \"say\": the language is missing, such as language=ja".to_string()),
        (hand, "after word 4, \"ron=3\": the language is missing, such as language=ja".into()),
        ("language=ja", format!("after word 2, \"language=ja\": no hand, such as {hand}")),
        ("language=fr", "word 2, \"language=fr\": ja, en, ko, zh or 1 to 4 is needed (a number up to 255 to see it refused)".into()),
        ("language=256", "word 2, \"language=256\": ja, en, ko, zh or 1 to 4 is needed (a number up to 255 to see it refused)".into()),
        ("language=ja buffer=x", "word 3, \"buffer=x\": a number 0 to 65536 is needed".into()),
        (&format!("{hand} language=ja --wav"), "after word 6, \"--wav\": the name of a file is missing".into()),
        (&format!("{hand} language=ja --loud"), "word 6, \"--loud\": no option here; --help lists them".into()),
        ("refusal language=ja", "after word 3, \"language=ja\": the number of a refusal is missing, 0 to 22".into()),
        ("refusal x language=ja", "word 3, \"x\": a number 0 to 22 is needed (up to 255 to see it refused)".into()),
        ("refusal 1 2 language=ja", "word 4, \"2\": one number is enough".into()),
        ("refusal 1 --fu language=ja", "word 4, \"--fu\": no option here; --help lists them".into()),
        ("waits language=ja", "after word 3, \"language=ja\": no hand, such as 567m22456p67s chi=234m".into()),
        ("ready 123m language=ja", "after word 4, \"language=ja\": 3 tiles, with 0 melds 13 are needed".into()),
    ] {
        fails(&format!("say {words}"), "", &message);
    }
    fails("tally 01 --say", "", "after word 3, \"--say\": the language is missing, such as ja");
    fails("tally 01 --say fr", "", "--say fr: ja, en, ko, zh or 1 to 4 is needed (a number up to 255 to see it refused)");
}

#[test]
fn of_a_log() {
    for command in ["log", "tally", "damage log"] {
        let n = command.split(' ').count();
        let last = &command[command.find(' ').map_or(0, |at| at + 1)..];
        fails(command, "", &format!("after word {n}, \"{last}\": no log: a file, - for standard input, or hexadecimal digits"));
        fails(&format!("{command} none.txt"), "", &format!("word {}, \"none.txt\": no file of this name, nor hexadecimal digits", n + 1));
        fails(&format!("{command} 01 2"), "", &format!("word {}, \"2\": two hexadecimal digits make a byte, one is left over", n + 2));
        fails(&format!("{command} --wordz 01"), "", &format!("word {}, \"--wordz\": no option here; --help lists them", n + 1));
    }
    fails("log 01 to=", "", "word 3, \"to=\": the name of a file is missing");
    fails("log 01 to=none/a", "", "to=none/a: there is no folder none; make it first");
    fails("log 01 to=.", "", "to=.: this is a folder; write the name of a file in it");
    fails("log 01 to=. over=yes", "", "to=.: this is a folder; write the name of a file in it");
    fails("log 01 to=a over=no", "", "word 4, \"over=no\": yes is needed, or leave the word out");
    fails("log 01 over=yes", "", "word 3, \"over=yes\": to=FILE, the file to write, is missing");
}

#[test]
fn of_a_text() {
    for (line, message) in [
        ("hello 1", "word 1, \"hello\": a line begins with riichi, win, draw, chombo, multi, pao, correct or bytes (as=bytes if the file is no text)"),
        ("Richi: 1", "word 1, \"Richi:\": the word is riichi: riichi 1"),
        ("tsumo 234567m345p67s22s+8s seat=1", "word 1, \"tsumo\": the word is win: win HAND, with tsumo or ron= in it"),
        ("correction draw 1", "word 1, \"correction\": the word is correct: correct draw 0 2"),
        ("correct ryuukyoku 1", "word 2, \"ryuukyoku\": the word is draw: draw 0 2"),
        ("riichi seat 1", "word 2, \"seat\": a seat is 0, 1, 2 or 3, or E S W N by the first deal's winds (up to 15 to see it refused)"),
        ("draw nobody", "word 2, \"nobody\": a seat is 0, 1, 2 or 3, or E S W N by the first deal's winds; draw alone: nobody is ready"),
        ("multi 00 and 00", "word 3, \"and\": / stands between two hands"),
        ("riichi", "after word 1, \"riichi\": the seat is missing, 0 to 3"),
        ("riichi 1 2", "word 3, \"2\": one seat is enough; a comment begins with #"),
        ("chombo 16", "word 2, \"16\": a seat is 0, 1, 2 or 3, or E S W N by the first deal's winds (up to 15 to see it refused)"),
        ("draw 0 4", "word 3, \"4\": a seat is 0, 1, 2 or 3, or E S W N by the first deal's winds; draw alone: nobody is ready"),
        ("draw 0 0", "word 3, \"0\": this seat is named already"),
        ("draw 02", "word 2, \"02\": a seat is one digit; put spaces between seats; draw alone: nobody is ready"),
        ("draw 01", "word 2, \"01\": a seat is one digit; put spaces between seats; draw alone: nobody is ready"),
        ("chombo 003", "word 2, \"003\": a seat is one digit; put spaces between seats (up to 15 to see it refused)"),
        ("riichi seat=01", "word 2, \"seat=01\": a seat is one digit; put spaces between seats (up to 15 to see it refused)"),
        ("riichi +1", "word 2, \"+1\": a seat is 0, 1, 2 or 3, or E S W N by the first deal's winds (up to 15 to see it refused)"),
        ("riichi 04", "word 2, \"04\": a seat is 0, 1, 2 or 3, or E S W N by the first deal's winds (up to 15 to see it refused)"),
        ("pao holder=01 feeder=3 yaku=28", "word 2, \"holder=01\": a seat is one digit; put spaces between seats"),
        ("win # nothing", "after word 1, \"win\": no hand, such as 234567m345p67s22s+8s seat=1 ron=3"),
        ("win 234567m345p67s22s+8s seat=1", "after word 3, \"seat=1\": tsumo or ron=, such as ron=3, is missing"),
        ("win 234567m345p67s22s+8s seat=1 tsumo wind=E", "word 5, \"wind=E\": in a log the game says who deals and which wind blows"),
        ("many 00 / 00", "word 1, \"many\": the word is multi: multi HAND / HAND"),
        ("correct many 00 / 00", "word 2, \"many\": the word is multi: multi HAND / HAND"),
        ("feed holder=1 feeder=3 yaku=28", "word 1, \"feed\": the word is pao: pao holder=1 feeder=3 yaku=28"),
        ("multi", "after word 1, \"multi\": no hand, such as 234567m345p67s22s+8s seat=1 ron=3"),
        ("multi 234567m345p67s22s+8s seat=1 ron=3 /", "after word 5, \"/\": no hand, such as 234567m345p67s22s+8s seat=1 ron=3"),
        ("multi / 00", "after word 2, \"/\": no hand, such as 234567m345p67s22s+8s seat=1 ron=3"),
        ("multi 234567m345p67s22s+8s seat=1 / 00", "after word 3, \"seat=1\": tsumo or ron=, such as ron=3, is missing"),
        ("multi 00 / 234567m345p67s22s+8s seat=5", "word 5, \"seat=5\": a seat is 0, 1, 2 or 3, or E S W N by the first deal's winds"),
        ("multi 00 / 00 / 00 / 00", "word 8, \"00\": a fourth hand, at most 3 fit"),
        ("pao", "after word 1, \"pao\": holder=, feeder= and yaku= are needed, such as holder=1 feeder=3 yaku=28"),
        ("pao holder=1 yaku=28", "after word 3, \"yaku=28\": holder=, feeder= and yaku= are needed, such as holder=1 feeder=3 yaku=28"),
        ("pao holder=4 feeder=1 yaku=28", "word 2, \"holder=4\": a seat is 0, 1, 2 or 3, or E S W N by the first deal's winds"),
        ("pao holder=0 feeder=x yaku=28", "word 3, \"feeder=x\": a seat is 0, 1, 2 or 3, or E S W N by the first deal's winds"),
        ("pao holder=0 feeder=1 yaku=30", "word 4, \"yaku=30\": 28 for three dragon triplets or 29 for four wind triplets is needed"),
        ("pao holder=0 feeder=1 yaku=28 yaku=28", "word 5, \"yaku=28\": an earlier word has said this already"),
        ("pao 0 1 28", "word 2, \"0\": one of holder=, feeder= and yaku= is needed"),
        ("correct", "after word 1, \"correct\": what the result was is needed: win, draw, chombo or multi"),
        ("correct riichi 1", "word 2, \"riichi\": what the result was is needed: win, draw, chombo or multi"),
        ("correct correct draw", "word 2, \"correct\": what the result was is needed: win, draw, chombo or multi"),
        ("correct draw 4", "word 3, \"4\": a seat is 0, 1, 2 or 3, or E S W N by the first deal's winds; draw alone: nobody is ready"),
        ("correct chombo", "after word 2, \"chombo\": the seat is missing, 0 to 3"),
        ("correct win 234567m345p67s22s+8s seat=1 tsumo wind=E", "word 6, \"wind=E\": in a log the game says who deals and which wind blows"),
        ("correct multi", "after word 2, \"multi\": no hand, such as 234567m345p67s22s+8s seat=1 ron=3"),
        ("win b8", "word 2, \"b8\": refusal 14, the log's entry is bad or cut: bytes missing; a line that begins with bytes may have such bytes"),
        ("win b81e640210620a31661a9a6bb000", "word 2, \"b81e640210620a31661a9a6bb000\": the entry has 14 bytes, and the line 15; a line that begins with bytes may have such bytes"),
        ("bytes 10\nbytes b8\n\nRiichi 2", "word 1, \"Riichi\": the bytes before this line are no whole entries: refusal 14, the log's entry is bad or cut: bytes missing"),
        ("bytes 1 0", "word 2, \"1\": two hexadecimal digits make a byte, one is left over"),
        ("bytes 4", "word 2, \"4\": two hexadecimal digits make a byte, one is left over"),
        ("bytes xy", "word 2, \"xy\": hexadecimal digits are needed"),
    ] {
        let text = format!("# an evening\n\nriichi 1\n{line}\n");
        let last = 4 + line.lines().count() - 1;
        fails("tally -", &text, &format!("standard input, line {last}, {message}"));
    }
}

/// A text with these bytes in a comment of its second line.
fn comment(bytes: &[u8]) -> Vec<u8> {
    [b"riichi 1\n# ", bytes, b"\ndraw 1\n"].concat()
}

#[test]
fn of_a_text_that_is_not_utf_8() {
    let advice = "save the text as UTF-8, or write as=bytes if the file holds a log's bytes";
    let utf_16 = |text: &str, order: fn(u16) -> [u8; 2]| text.encode_utf16().flat_map(order).collect::<Vec<u8>>();
    for (input, message) in [
        (comment(b"Caf\xe9"), "line 2, byte 6 of the line, e9: this is no UTF-8"),
        (comment(b"\x83\x8a\x81[\x83`"), "line 2, byte 3 of the line, 83: this is no UTF-8"),
        (comment(b"\x1b$BLk\x1b(B"), "line 2, byte 3 of the line, 1b: a control sign, which a text does not have"),
        (comment(b"\0"), "line 2, byte 3 of the line, 00: a control sign, which a text does not have"),
        (b"# Caf\xe9, nothing played\n".to_vec(), "line 1, byte 6 of the line, e9: this is no UTF-8"),
        (utf_16("\u{feff}riichi 1\n", u16::to_le_bytes), "line 1, byte 1 of the line, fffe: the mark of a text in UTF-16 or UTF-32"),
        (utf_16("\u{feff}riichi 1\n", u16::to_be_bytes), "line 1, byte 1 of the line, feff: the mark of a text in UTF-16 or UTF-32"),
        (utf_16("# 1\nriichi 1\n", u16::to_le_bytes), "line 1, byte 2 of the line, 00: a control sign, which a text does not have"),
        (utf_16("riichi 1\n", u16::to_be_bytes), "line 1, byte 1 of the line, 00: a control sign, which a text does not have"),
    ] {
        for line in ["tally -", "tally - --plain", "log -", "damage log -", "tally - as=text", "tally - as=hex"] {
            fails(line, &input, &format!("standard input, {message}; {advice}"));
        }
    }
    fails(
        "log - as=text",
        [1, 0x24],
        &format!("standard input, line 1, byte 1 of the line, 01: a control sign, which a text does not have; {advice}"),
    );
}

#[test]
fn of_the_form_of_a_log() {
    let begins = "a line begins with riichi, win, draw, chombo, multi, pao, correct or bytes (as=bytes if the file is no text)";
    fails("tally -", "pao 1 3 28\n", "standard input, line 1, word 2, \"1\": one of holder=, feeder= and yaku= is needed");
    fails("tally -", "feed 1 3 28\n", "standard input, line 1, word 1, \"feed\": the word is pao: pao holder=1 feeder=3 yaku=28");
    fails("tally -", "# \n1 3 28\n", "standard input, line 2, word 1, \"1\": two hexadecimal digits make a byte, one is left over");
    fails("tally - as=text", "01 24\n", &format!("standard input, line 1, word 1, \"01\": {begins}"));
    fails("tally - as=hex", "01\n24 draw\n", "standard input, line 2, word 2, \"draw\": no hexadecimal digits");
    fails("tally - as=hexadecimal", "", "word 3, \"as=hexadecimal\": text, hex or bytes is needed");
    fails("tally - as=text --bytes", "", "--bytes is as=bytes, and as=text says another thing");
    fails("tally 01 24 as=bytes", "", "word 2, \"01\": no file of this name, and as=bytes is said of a file");
    fails("tally none.txt as=text", "", "word 2, \"none.txt\": no file of this name, nor hexadecimal digits");
}

#[test]
fn of_damage() {
    fails("damage", "", "after word 1, \"damage\": what is to be damaged: hand and its notation, or log and its file");
    fails("damage b8", "", "word 2, \"b8\": what is to be damaged: hand and its notation, or log and its file");
    fails("damage hand b8 random=x", "", "word 4, \"random=x\": a number of changes, such as 1000, is needed");
    fails("damage hand b8 seed=2", "", "word 4, \"seed=2\": random=N, the number of changes, is missing");
}
