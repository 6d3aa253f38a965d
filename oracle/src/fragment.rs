//! Requests `first` and `next`: the two fragment readers.

use crate::decoder::{decode_fragment_cont, decode_fragment_header};
use crate::errors::DecodeError;
use crate::numbers;

pub fn first(input: &[u8]) -> String {
    match decode_fragment_header(input) {
        Ok((head, rest)) => format!(
            "answer=0 rest={} sequence={} fragment={} count={}",
            input.len() - rest.len(),
            head.sequence_id,
            head.fragment_id,
            head.num_atom_cache_refs
        ),
        Err(error) => refused(&error),
    }
}

pub fn next(input: &[u8]) -> String {
    match decode_fragment_cont(input) {
        Ok(((sequence, fragment), rest)) => format!(
            "answer=0 rest={} sequence={sequence} fragment={fragment}",
            input.len() - rest.len()
        ),
        Err(error) => refused(&error),
    }
}

fn refused(error: &DecodeError) -> String {
    let (number, extra) = match error {
        // Here the Rust names the byte it found, also where that is 0.
        DecodeError::InvalidVersion { actual, .. } => (numbers::VERSION, usize::from(*actual)),
        DecodeError::InvalidFormat(text) => (numbers::KIND, tag_in(text)),
        other => numbers::of(other),
    };
    format!("answer={number} rest=0 extra={extra}")
}

/// The tag stands at the end of the message, after "got ".
fn tag_in(message: &str) -> usize {
    message
        .rsplit(' ')
        .next()
        .and_then(|word| word.parse().ok())
        .unwrap_or_else(|| panic!("no tag in the message {message:?}"))
}
