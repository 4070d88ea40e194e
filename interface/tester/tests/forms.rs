//! What a file of a log holds: a text in another encoding is no game but an error, a text from any system is read line by line, and a
//! handset's log of bytes is read as bytes.

mod run;

use run::{folder, root, run_in, Ran};

/// What tally says to a content.
fn tally(content: &[u8], more: &str) -> Ran {
    run_in(&folder("forms"), &format!("tally - {more}"), content)
}

/// The signs of a text in UTF-16, the bytes of each in an order.
fn utf_16(text: &str, order: fn(u16) -> [u8; 2]) -> Vec<u8> {
    text.encode_utf16().flat_map(order).collect()
}

#[test]
fn a_text_in_another_encoding_is_an_error() {
    let orders: [fn(u16) -> [u8; 2]; 2] = [u16::to_le_bytes, u16::to_be_bytes];
    let texts = ["1: riichi 1\n2: draw 1\n", "# table 2\n立直 1\n流局 1\n", "立直 1\n", "1. riichi 1\r\n", "table 2"];
    let in_utf_16 = texts.iter().flat_map(|text| orders.map(|order| utf_16(text, order)));
    let in_jis = [&b"\x1b$BN)D>\x1b(B 1\n"[..], b"# \x1b$BLk\x1b(J\n1: \x1b$BN)D>\x1b(B 1\n"].map(Vec::from);
    for content in in_utf_16.chain(in_jis) {
        let Ran { status, out, err } = tally(&content, "");
        let told =
            err.starts_with("tester: standard input, line ") && err.contains(", byte ") && err.contains("; save the text as UTF-8, ");
        assert!(status == 2 && out.is_empty() && told, "{content:02x?}: {err}");
    }
    let numbered = tally(b"1. riichi 1\n\x1a", "").err;
    assert!(numbered.starts_with("tester: standard input, line 1, word 1, \"1.\": a line begins with riichi, "), "{numbered}");
}

#[test]
fn a_handsets_log_is_read_as_bytes() {
    let record = [0xb8, 0x1e, 0x64, 0x02, 0x10, 0x62, 0x0a, 0x31, 0x66, 0x1a, 0x9a, 0x6b, 0xb0];
    let win = [&[0x10][..], &record].concat();
    let logs = [
        std::fs::read(root().join("crates/tally/stdin")).expect("a log"),
        vec![0x00, 0x24],
        vec![0x24, 0x00],
        [0x00, 0x24].repeat(20),
        [0x00, 0x2f, 0x00, 0x33].repeat(9),
        vec![0x00, 0x50, 0x70, 0x24],
        vec![0x03, 0x50, 0x73, 0x00],
        vec![0x01, 0x1b, 0x24],
        vec![0x01, b'w', b'i', b'n', b'd'],
        win.repeat(5),
        [&[1, 0x24][..], &win, &[0, 0, 0x60, 0x33, 0x41], &record].concat(),
    ];
    for log in logs {
        let Ran { status, out, err } = tally(&log, "");
        assert!(status == 0 && out.starts_with("standard input: read as bytes\n"), "{log:02x?}: {out}{err}");
    }
}

#[test]
fn lines_end_as_on_any_system() {
    let text = "# table 2\nriichi 1\n\ndraw 1 # done\nchombo 3\n";
    let wanted = tally(text.as_bytes(), "").out;
    assert!(wanted.contains("\n3 entries, 0 refused; "), "{wanted}");
    for end in ["\r\n", "\r", "\u{85}", "\u{2028}", "\u{2029}"] {
        assert_eq!(tally(text.replace('\n', end).as_bytes(), "").out, wanted, "{end:?}");
        assert_eq!(tally("01 # one\n24\n".replace('\n', end).as_bytes(), "--plain").out, tally(&[1, 0x24], "--plain").out, "{end:?}");
        let bad = tally(text.replace('\n', end).replace("chombo 3", "chombo x").as_bytes(), "").err;
        assert!(bad.starts_with("tester: standard input, line 5, word 2, \"x\": "), "{end:?}: {bad}");
        let no_text = tally(text.replace('\n', end).replace("chombo 3", "# \u{7}").as_bytes(), "").err;
        assert!(no_text.starts_with("tester: standard input, line 5, byte 3 of the line, 07: "), "{end:?}: {no_text}");
    }
    for end in ["\x1a", "\r\n\x1a", "\n\x1a\x1a"] {
        assert_eq!(tally(format!("{}{end}", text.trim_end()).as_bytes(), "").out, wanted, "{end:?}");
    }
}
