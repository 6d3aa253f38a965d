//! Request `term`: `decode_borrowed`, its refusal with number, offset, extra
//! and path.
//!
//! The Rust's path names a map's value by its key's text, document 01 by the
//! key's offset. The offsets are found by walking down the path, asking the
//! Rust itself where each child ends.

use crate::decoder::decode_borrowed;
use crate::errors::{DecodeError, PathSegment};
use crate::{numbers, value};
use std::fmt::Write;

pub fn answer(input: &[u8]) -> String {
    match decode_borrowed(input) {
        Ok(term) => format!("answer=0 value={}", value::of(&term)),
        Err(refusal) => {
            let (number, extra) = numbers::of(&refusal.error);
            format!(
                "answer={number} offset={} extra={extra} path={}",
                refusal.context.byte_offset,
                path(input, &refusal.context.path)
            )
        }
    }
}

fn path(input: &[u8], segments: &[PathSegment]) -> String {
    let mut keys = key_offsets(input, segments).into_iter();
    let mut text = String::new();
    for (index, segment) in segments.iter().enumerate() {
        if index > 0 {
            text.push('/');
        }
        let (kind, number) = match segment {
            PathSegment::TupleElement(index) => ("tuple", *index),
            PathSegment::ListElement(index) => ("list", *index),
            PathSegment::ImproperListTail => ("tail", 0),
            PathSegment::MapKey => ("key", 0),
            PathSegment::MapValue(_) => ("value", keys.next().expect("a key for each value")),
            PathSegment::FunFreeVar(index) => ("free", *index),
        };
        write!(text, "{kind}:{number}").expect("a String takes all text");
    }
    text
}

/// The key's offset for each map value on the path of a refusal, in order.
fn key_offsets(input: &[u8], segments: &[PathSegment]) -> Vec<usize> {
    let is_value = |segment: &PathSegment| matches!(segment, PathSegment::MapValue(_));
    let Some(last) = segments.iter().rposition(is_value) else {
        return Vec::new();
    };
    let mut walk = Walk(input.to_vec());
    let mut keys = Vec::new();
    let mut at = 1;
    for segment in &segments[..=last] {
        at = walk.container(at);
        at = match segment {
            PathSegment::TupleElement(index) if input[at] == 104 => walk.past(at + 2, *index),
            PathSegment::TupleElement(index) | PathSegment::ListElement(index) => {
                walk.past(at + 5, *index)
            }
            PathSegment::ImproperListTail => walk.past(at + 5, walk.count(at)),
            PathSegment::MapKey | PathSegment::MapValue(_) => {
                let (faulty, before) = walk.first_faulty(at + 5);
                if is_value(segment) {
                    keys.push(before);
                }
                faulty
            }
            PathSegment::FunFreeVar(index) => walk.past(at + FUNCTION_HEAD, REQUIRED + *index),
        };
    }
    keys
}

/// From a function's tag to its first child: size, arity, 16 bytes, index
/// and free count. Before its free children it has four required ones.
const FUNCTION_HEAD: usize = 1 + 4 + 1 + 16 + 4 + 4;
const REQUIRED: usize = 4;

/// The input, with any byte lent for a moment to the 131 that the Rust wants
/// in front of a term: no child's bytes are copied to ask for its end.
struct Walk(Vec<u8>);

impl Walk {
    /// Where the term at `start` ends, none where the Rust refuses it.
    fn end(&mut self, start: usize) -> Option<usize> {
        let lent = std::mem::replace(&mut self.0[start - 1], 131);
        let end = match decode_borrowed(&self.0[start - 1..]) {
            Ok(_) => Some(self.0.len()),
            Err(refusal) => match refusal.error {
                DecodeError::TrailingData(left) => Some(self.0.len() - left),
                _ => None,
            },
        };
        self.0[start - 1] = lent;
        end
    }

    /// The place after `count` children that the Rust accepts.
    fn past(&mut self, first: usize, count: usize) -> usize {
        (0..count).fold(first, |at, _| self.end(at).expect("an accepted child"))
    }

    /// The first child that is refused, and the start of the one before it.
    fn first_faulty(&mut self, first: usize) -> (usize, usize) {
        let (mut at, mut before) = (first, first);
        while let Some(end) = self.end(at) {
            (at, before) = (end, at);
        }
        (at, before)
    }

    /// The announced length of a list.
    fn count(&self, list: usize) -> usize {
        let bytes = self.0[list + 1..list + 5].try_into().expect("four bytes");
        u32::from_be_bytes(bytes) as usize
    }

    /// The term whose segment comes next on the path: the one at `at`, or
    /// one inside its required children, which enter no segment. The path
    /// goes on, so where there is no segment a required child is refused.
    fn container(&mut self, mut at: usize) -> usize {
        loop {
            at = match self.0[at] {
                88 | 120 => at + 1,
                90 => at + 3,
                113 => self.first_faulty(at + 1).0,
                112 => {
                    let mut child = at + FUNCTION_HEAD;
                    let mut read = 0;
                    while read < REQUIRED {
                        let Some(end) = self.end(child) else { break };
                        child = end;
                        read += 1;
                    }
                    if read == REQUIRED {
                        return at;
                    }
                    child
                }
                _ => return at,
            }
        }
    }
}
