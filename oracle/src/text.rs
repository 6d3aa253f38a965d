//! Rust's own judgement of text: UTF-8, and a tag 99's number.

use std::str;

/// How many leading bytes form complete good characters.
pub fn good(bytes: &[u8]) -> usize {
    match str::from_utf8(bytes) {
        Ok(_) => bytes.len(),
        Err(error) => error.valid_up_to(),
    }
}

/// The judgement of a tag 99's text, of any length here.
pub fn is_literal(bytes: &[u8]) -> bool {
    match str::from_utf8(bytes) {
        Ok(text) => text.trim_end_matches('\0').parse::<f64>().is_ok(),
        Err(_) => false,
    }
}
