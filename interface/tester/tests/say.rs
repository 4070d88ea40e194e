//! What the handset says: the message of each thing in each language, buffers that are too short, and sound by espeak-ng.

mod run;

use std::fs;
use std::path::Path;
use std::process::{Command, Stdio};

use run::{answer, folder, root, run_alone, run_in};

const LANGUAGES: [&str; 4] = ["ja", "en", "ko", "zh"];
const HAND: &str = "234567m345p67s22s+8s seat=1 ron=3";

/// The lines of a message: clips and words.
fn ends_with(line: &str, message: &str) {
    let out = answer(line);
    assert!(out.ends_with(&format!("\n\n{message}\nboth scorers agree\n")), "{line}: {out}");
}

#[test]
fn a_hand_in_four_languages() {
    for (language, message) in LANGUAGES.into_iter().zip([
        "\
61 64        南家ロン和了  (ナンチャ ロンあがり)
142          断么九  (タンヤオ)
144          平和  (ピンフ)
2 69 12 70   二翻三十符  (に ハン さんじゅう ふ)
63 66 29 68  北家支払い二千点  (ペーチャ しはらい にせん てん)
61 67 29 68  南家受け取り二千点  (ナンチャ うけとり にせん てん)
",
        "\
61 64          South wins by ron
142            tanyao
144            pinfu
2 69 12 70     two han thirty fu
63 66 2 51 68  North pays two thousand points
61 67 2 51 68  South gets two thousand points
",
        "\
61 64        남가 론 화료
142          탕야오
144          핑후
2 69 12 70   이 판 삼십 부
63 66 29 68  북가 지불 이천 점
61 67 29 68  남가 획득 이천 점
",
        "\
61 64        南家荣和  (nán jiā róng hú)
142          断幺九  (duàn yāo jiǔ)
144          平和  (píng hú)
2 69 12 70   二番三十符  (èr fān sān shí fú)
63 66 29 68  北家支付两千点  (běi jiā zhī fù liǎng qiān diǎn)
61 67 29 68  南家获得两千点  (nán jiā huò dé liǎng qiān diǎn)
",
    ]) {
        ends_with(&format!("say {HAND} language={language}"), message);
    }
    for (number, language) in (1..).zip(LANGUAGES) {
        assert_eq!(answer(&format!("say {HAND} language={number}")), answer(&format!("say language={language} {HAND}")));
    }
}

#[test]
fn other_things() {
    let fu = "84 11     base twenty\n85 10     closed ron ten\n94 12 70  in all thirty fu\n";
    ends_with(&format!("say {HAND} language=en --fu"), fu);
    ends_with("say 111m333p555s77s99s+7s seat=1 tsumo language=en --fu", "75  yakuman\n");
    let waits = "79   待ち  (まち)\n122  五索  (ウーソー)\n125  八索  (パーソー)\n81   振聴  (フリテン)\n";
    ends_with("say waits 567m22456p67s chi=234m discards=N8s4m language=ja", waits);
    ends_with("say waits 123456m99p46s ankan=5555s discards=5s language=en", "80  waits for nothing\n");
    ends_with("say ready 1111m44m77m22p55p8p language=en", "2 83  two away from ready\n");
    ends_with("say ready 1112345678999m language=ko", "82  텐파이\n");
    ends_with("say refusal 7 language=en", "207  The hand has no yaku\n");
}

#[test]
fn refusals_and_short_buffers() {
    let last = |words: &str| {
        let out = answer(&format!("say {words} --plain"));
        out[out.find("language ").expect("a language")..].to_string()
    };
    assert_eq!(last("456p78s234s99p+9s chi=123m seat=1 ron=3 language=3"), "language 3\nsaid 7 0\nclips\ndifferences 0\n");
    assert_eq!(last(&format!("{HAND} language=0")), "language 0\nsaid 8 0\nclips\ndifferences 0\n");
    assert_eq!(last(&format!("{HAND} dealer=4 language=1")), "language 1\nsaid 8 0\nclips\ndifferences 0\n");
    assert_eq!(last(&format!("{HAND} language=ja buffer=15")), "language 1\nsaid 13 0\nclips\ndifferences 0\n");
    assert!(last(&format!("{HAND} language=ja buffer=16")).starts_with("language 1\nsaid 0 16\nclips 61 64 142 "));
    assert_eq!(last("waits 1112345678999m kinds=22 language=1"), "language 1\nsaid 15 0\nclips\ndifferences 0\n");
    assert_eq!(last("ready a0 language=1"), "language 1\nsaid 1 0\nclips\ndifferences 0\n");
    assert_eq!(last("refusal 23 language=1"), "language 1\nsaid 8 0\nclips\ndifferences 0\n");
    for language in LANGUAGES {
        for number in 0..=22 {
            let out = last(&format!("refusal {number} language={language}"));
            assert!(out.contains(&format!("\nsaid 0 1\nclips {}\nwords ", 200 + number)) && !out.contains('?'), "{out}");
        }
    }
}

#[test]
fn scores_of_an_evening() {
    let evening = root().join("docs/evening.txt");
    let words = format!("tally {} --say", evening.display());
    let out = answer(&format!("{words} en"));
    let words_then =
        "East thirty thousand points; South twenty nine thousand points; West thirty thousand points; North thirty thousand points";
    let clips = "60 12 51 68; 61 11 9 51 68; 62 12 51 68; 63 12 51 68; 77 1";
    assert!(out.contains(&format!("\n      {words_then}; sticks one\n      {clips}\n")), "{out}");
    let plain = answer(&format!("{words} 4 --plain"));
    assert_eq!(plain.lines().count(), 20, "{plain}");
    assert!(plain.starts_with("1 R 0 30000 29000 30000 30000 1\nclips 60 3 37 68 61 41 37 36 68 62 3 37 68 63 3 37 68 77 1\n"), "{plain}");
    assert!(!out.contains('?') && answer(&format!("{words} 5")).contains("\n      refusal 8, an argument is out of range\n"));
}

#[test]
fn without_espeak_it_says_so_in_a_line() {
    let ran = run_alone("say refusal 7 language=en --wav never.wav");
    let wanted = "tester: --wav needs the program espeak-ng, which is not installed; without --wav the words are shown\n";
    assert_eq!((ran.status, ran.out.as_str(), ran.err.as_str()), (2, "", wanted));
    assert!(run_alone("say refusal 23 language=en --wav never.wav").out.contains("\nnothing is said, and never.wav is not written\n"));
}

#[test]
fn a_file_that_exists_is_left_as_it_is() {
    let file = folder("wav").join("keep.txt");
    fs::write(&file, "keep").expect("a file");
    let line = format!("say refusal 7 language=en --wav {}", file.display());
    let exists =
        format!("tester: --wav {}: this file exists; take another name, or write over=yes to lose what it holds\n", file.display());
    let ran = run_alone(&line);
    assert_eq!((ran.status, ran.out.as_str(), ran.err), (2, "", exists));
    assert_eq!(fs::read(&file).expect("the file"), b"keep");
    assert!(run_alone(&format!("{line} over=yes")).err.starts_with("tester: --wav needs the program espeak-ng"));
    let none = run_alone("say refusal 7 language=en over=yes");
    assert_eq!((none.status, none.err.as_str()), (2, "tester: word 5, \"over=yes\": --wav FILE, the file to write, is missing\n"));
}

#[test]
fn the_scores_of_a_log_have_what_is_said_of_it() {
    let stopped = "stopped at byte 2, 99: refusal 14, the log's entry is bad or cut: kind over 6\n";
    assert!(answer("say scores 01 24 99 language=en").starts_with(stopped));
    let plain = run_in(Path::new("."), "say scores 01 24 99 language=en --plain", &[]);
    assert_eq!((plain.status, plain.err), (0, format!("tester: {stopped}")));
    let long = run_in(Path::new("."), "say scores - as=bytes language=en", &[0x24; 65_537]).out;
    let cut =
        "standard input: read as bytes\nthe log has 65,537 bytes, and a game is read from the first 65,536: the cut is after entry 65536\n";
    assert!(long.starts_with(cut), "{long}");
}

#[test]
fn with_espeak_a_file_is_written() {
    let version = Command::new("espeak-ng").arg("--version").stdout(Stdio::null()).status();
    if !version.is_ok_and(|status| status.success()) {
        return;
    }
    let folder = folder("wav");
    for language in LANGUAGES {
        let ran = run_in(&folder, &format!("say {HAND} language={language} --wav {language}.wav over=yes"), &[]);
        assert!(ran.status == 0 && ran.out.contains(&format!("\nwritten into {language}.wav\n")), "{ran:?}");
        let bytes = fs::read(folder.join(format!("{language}.wav"))).expect("the file");
        assert!(bytes.starts_with(b"RIFF") && bytes.len() > 50_000, "{language}: {} bytes", bytes.len());
    }
    let ran = run_in(&folder, &format!("say {HAND} language=en --wav none/a.wav"), &[]);
    assert_eq!((ran.status, ran.err.as_str()), (2, "tester: --wav none/a.wav: there is no folder none; make it first\n"));
}
