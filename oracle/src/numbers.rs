//! The Rust's errors as document 01's numbers.

use crate::errors::DecodeError;

pub const VERSION: u8 = 12;
pub const KIND: u8 = 13;

/// A number and what the table says belongs to it, 0 where it says nothing.
pub fn of(error: &DecodeError) -> (u8, usize) {
    match error {
        DecodeError::UnexpectedEof => (1, 0),
        DecodeError::InvalidVersion { actual: 0, .. } => (2, 0),
        DecodeError::InvalidFormat(text) if text == "Char" => (3, 0),
        DecodeError::InvalidFormat(text) if text == "Float" => (4, 0),
        DecodeError::InvalidFormat(text) if text == "validation failed" => (5, 0),
        DecodeError::InvalidFormat(text) if text == "size limit exceeded" => (6, 0),
        DecodeError::TrailingData(count) => (7, *count),
        other => panic!("document 01 has no number for {other:?}"),
    }
}
