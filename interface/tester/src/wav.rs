//! A message as sound, by the program espeak-ng where that is installed.

use std::fs;
use std::io::{ErrorKind, Write};
use std::process::{Command, Stdio};

use crate::sheet::{parts, reading, words};
use crate::words::Bad;

/// The voices of the four languages; Japanese is spoken from its kana.
const VOICES: [&str; 4] = ["ja", "en", "ko", "cmn"];

/// The text that is spoken: the parts with a comma, a pause, between them.
fn text(language: u8, clips: &[u8]) -> String {
    let part = |part: &[u8]| match language {
        1 => reading(language, part).unwrap_or_default(),
        _ => words(language, part),
    };
    parts(clips).into_iter().map(part).collect::<Vec<_>>().join(", ")
}

/// Writes a message into a file.
pub fn write(file: &str, language: u8, clips: &[u8]) -> Result<(), Bad> {
    let voice = VOICES[language as usize - 1];
    let begun = Command::new("espeak-ng")
        .args(["-v", voice, "--stdin", "-w", file])
        .stdin(Stdio::piped())
        .stdout(Stdio::null())
        .stderr(Stdio::null())
        .spawn();
    let mut child = begun.map_err(|error| match error.kind() {
        ErrorKind::NotFound => Bad::new("--wav needs the program espeak-ng, which is not installed; without --wav the words are shown"),
        _ => Bad::new(format!("espeak-ng: {error}")),
    })?;
    child.stdin.take().expect("its input").write_all(text(language, clips).as_bytes()).unwrap_or(());
    let done = child.wait().is_ok_and(|status| status.success());
    match fs::read(file) {
        Ok(bytes) if done && bytes.starts_with(b"RIFF") => Ok(()),
        _ => Err(Bad::new(format!("{file}: espeak-ng could not write it"))),
    }
}
