//! Bytes as the words of a case say them, and as an answer shows them.

/// The byte of two hex digits.
fn byte(digits: &str) -> u8 {
    u8::from_str_radix(digits, 16).expect("two hex digits")
}

/// The bytes of one part: `-`, `xCOUNT:HH` or hex.
fn part(text: &str) -> Vec<u8> {
    if text == "-" {
        return Vec::new();
    }
    if let Some(repeated) = text.strip_prefix('x') {
        let (count, digits) = repeated.split_once(':').expect("xCOUNT:HH");
        return vec![byte(digits); count.parse().expect("a count")];
    }
    (0..text.len() / 2).map(|i| byte(&text[2 * i..2 * i + 2])).collect()
}

/// The bytes of parts joined by `+`.
pub fn bytes(text: &str) -> Vec<u8> {
    text.split('+').flat_map(part).collect()
}

/// Hex, and `-` for no byte.
pub fn hex(bytes: &[u8]) -> String {
    if bytes.is_empty() {
        return "-".to_string();
    }
    bytes.iter().map(|byte| format!("{byte:02X}")).collect()
}
