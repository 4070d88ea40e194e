//! Records as hexadecimal digits.

/// Two digits for each byte.
pub fn to_hex(bytes: &[u8]) -> String {
    bytes.iter().map(|byte| format!("{byte:02x}")).collect()
}

/// Whether a word is made of hexadecimal digits only; notation never is, for its + and suit letters.
pub fn is_hex(word: &str) -> bool {
    !word.is_empty() && word.bytes().all(|digit| digit.is_ascii_hexdigit())
}

/// The bytes of a word of hexadecimal digits.
pub fn from_hex(word: &str) -> Result<Vec<u8>, String> {
    if !is_hex(word) || word.len() % 2 != 0 {
        return Err(format!("{word}: two hexadecimal digits are needed for each byte"));
    }
    let byte = |at: usize| u8::from_str_radix(&word[at..at + 2], 16).expect("digits");
    Ok((0..word.len()).step_by(2).map(byte).collect())
}
