//! Bytes as lower-case hex, `-` for no bytes where a word is needed.

/// The bytes of a request's word, none where the word is not well formed.
pub fn bytes_of(word: &str) -> Option<Vec<u8>> {
    if word == "-" {
        return Some(Vec::new());
    }
    if word.is_empty() {
        return None;
    }
    bytes_in(word)
}

/// The bytes that a text spells, none for an empty one.
pub fn bytes_in(text: &str) -> Option<Vec<u8>> {
    if text.len() % 2 != 0 {
        return None;
    }
    text.as_bytes()
        .chunks(2)
        .map(|pair| Some(digit(pair[0])? << 4 | digit(pair[1])?))
        .collect()
}

fn digit(letter: u8) -> Option<u8> {
    match letter {
        b'0'..=b'9' => Some(letter - b'0'),
        b'a'..=b'f' => Some(letter - b'a' + 10),
        _ => None,
    }
}

/// Adds the bytes to a text, nothing for no bytes.
pub fn push(text: &mut String, bytes: &[u8]) {
    const DIGITS: &[u8; 16] = b"0123456789abcdef";
    for byte in bytes {
        text.push(DIGITS[usize::from(byte >> 4)].into());
        text.push(DIGITS[usize::from(byte & 15)].into());
    }
}

/// A word of its own: `-` for no bytes.
pub fn word(bytes: &[u8]) -> String {
    let mut text = String::new();
    push(&mut text, bytes);
    if text.is_empty() { "-".into() } else { text }
}
