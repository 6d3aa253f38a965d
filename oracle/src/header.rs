//! Request `header`: `parse_dist_header_with_cache` without the term after
//! it. The Rust has no call that stops at the header's end, so the end is
//! found from outside: it is the one place where a single Nil put after the
//! bytes before it makes the whole input decode to that Nil.
//!
//! Where the Rust looks for the long bit at another place than document 02,
//! and the two bits differ, a header is outside, or asked about as it is
//! meant.

use crate::decoder::{AtomCache, decode_with_atom_cache};
use crate::numbers;
use crate::term::OwnedTerm;
use crate::types::Atom;

const NIL: u8 = 106;
const LONGEST_NAME: usize = 255;

/// How the Rust is asked about a header in which the two bits differ.
#[derive(Clone, Copy, PartialEq)]
pub enum Asking {
    /// Not at all: it is outside.
    AsItStands,
    /// With the Rust's bit set as document 02's is.
    AsMeant,
}

/// The names, and the requests that change or show them.
pub struct Names {
    asking: Asking,
    cache: AtomCache,
}

impl Names {
    pub fn new(asking: Asking) -> Self {
        let cache = AtomCache::new();
        Names { asking, cache }
    }

    pub fn clear(&mut self) {
        self.cache = AtomCache::new();
    }

    /// The filled slots in rising order.
    pub fn filled(&self) -> impl Iterator<Item = (u8, &Atom)> {
        (0..=255).filter_map(|slot| Some((slot, self.cache.get(slot)?)))
    }

    pub fn read(&mut self, input: &[u8]) -> String {
        if input.len() >= 2 && input[0] == 131 && input[1] != 68 {
            return "outside".into();
        }
        let meant = meant(input);
        if self.asking == Asking::AsItStands && meant != input {
            return "outside".into();
        }
        let input = &meant[..];
        let layout = Layout::of(input);
        let end = end(input, &layout);
        let mut cache = self.cache.clone();
        let answer = match end {
            Some(end) => {
                assert!(is_nil(&[&input[..end], &[NIL]].concat(), &mut cache));
                format!("answer=0 rest={end} extra=0")
            }
            None => {
                let error = decode_with_atom_cache(input, &mut cache)
                    .expect_err("an input with no header in it");
                let (number, extra) = numbers::of(&error);
                format!("answer={number} rest=0 extra={extra}")
            }
        };
        let advanced = Names { cache, ..*self };
        let too_long = advanced.filled().any(|(_, name)| name.len() > LONGEST_NAME);
        if layout.long_name || too_long {
            return "outside".into();
        }
        *self = advanced;
        answer
    }
}

/// The header in which the Rust reads what document 02 means by this one.
///
/// Lengths have two bytes by the bit worth 1 in the half byte after the last
/// reference. The Rust asks the bit worth 1 of the last flag byte, which for
/// an even count is the same. For an odd one it belongs to a segment number,
/// which the Rust looks at for nothing else, and it is set as the bit worth
/// 16 is.
fn meant(input: &[u8]) -> Vec<u8> {
    let mut meant = input.to_vec();
    if let [131, 68, count, flags @ ..] = &mut meant[..] {
        if let (1, Some(last)) = (*count % 2, flags.get_mut(usize::from(*count / 2))) {
            *last = *last & !1 | *last >> 4 & 1;
        }
    }
    meant
}

/// Where the header ends, none where the Rust refuses it.
///
/// A header's reading looks at no byte past its end, so at most one place
/// passes the test below, and the same one for whatever follows. The layout
/// only says which place to try first.
fn end(input: &[u8], layout: &Layout) -> Option<usize> {
    match &layout.found {
        Found::End(end) if ends_at(input, *end) => return Some(*end),
        // With the missing bytes the header would end past this input, and
        // therefore it has no end inside it.
        Found::Missing(bytes) if ends_at(&[input, bytes].concat(), input.len() + bytes.len()) => {
            return None;
        }
        _ => {}
    }
    (3..=input.len()).find(|&end| ends_at(input, end))
}

fn ends_at(input: &[u8], end: usize) -> bool {
    is_nil(&[&input[..end], &[NIL]].concat(), &mut AtomCache::new())
}

fn is_nil(input: &[u8], cache: &mut AtomCache) -> bool {
    matches!(
        decode_with_atom_cache(input, cache),
        Ok((OwnedTerm::Nil, None))
    )
}

/// What the bytes look like when walked by the Rust's layout: a guess, which
/// the Rust confirms or not.
struct Layout {
    found: Found,
    /// A name of more than 255 bytes was completed, replaced or not.
    long_name: bool,
}

enum Found {
    End(usize),
    /// The input breaks off; these bytes, at least one, would complete it.
    Missing(Vec<u8>),
    /// The walk ends at a name that isn't text, or there is no header.
    Nothing,
}

impl Layout {
    fn of(input: &[u8]) -> Layout {
        let mut layout = Layout {
            found: Found::Nothing,
            long_name: false,
        };
        if input.len() < 3 || input[..2] != [131, 68] {
            return layout;
        }
        let count = usize::from(input[2]);
        let flags = if count == 0 { 0 } else { count / 2 + 1 };
        let mut bytes = Supply {
            input,
            at: 3,
            added: Vec::new(),
        };
        let flags = bytes.take(flags);
        let wide = flags.last().is_some_and(|byte| byte & 1 != 0);
        for index in 0..count {
            bytes.take(1);
            if flags[index / 2] >> (4 * (index % 2)) & 8 == 0 {
                continue;
            }
            let length = bytes.take(if wide { 2 } else { 1 });
            let length = length
                .iter()
                .fold(0, |sum, byte| sum << 8 | usize::from(*byte));
            let name = bytes.take(length);
            if std::str::from_utf8(&name).is_err() {
                return layout;
            }
            layout.long_name |= bytes.added.is_empty() && name.len() > LONGEST_NAME;
        }
        layout.found = if bytes.added.is_empty() {
            Found::End(bytes.at)
        } else {
            Found::Missing(bytes.added)
        };
        layout
    }
}

/// The input, and zero bytes after it for as long as the walk asks.
struct Supply<'a> {
    input: &'a [u8],
    at: usize,
    added: Vec<u8>,
}

impl Supply<'_> {
    fn take(&mut self, count: usize) -> Vec<u8> {
        let there = count.min(self.input.len() - self.at);
        let mut taken = self.input[self.at..self.at + there].to_vec();
        self.at += there;
        taken.resize(count, 0);
        self.added.resize(self.added.len() + count - there, 0);
        taken
    }
}
