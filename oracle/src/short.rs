//! Every input of up to two bytes, every one of three that begins with 131,
//! and for the tags that are taken those of four with bytes at the edges.

use crate::make::TAGS;
use crate::term;

pub fn requests() -> impl Iterator<Item = String> {
    let byte = || 0..=255u8;
    let one = byte().map(|a| term(&[a]));
    let two = byte().flat_map(move |a| byte().map(move |b| term(&[a, b])));
    let three = byte().flat_map(move |a| byte().map(move |b| term(&[131, a, b])));
    let four = TAGS.into_iter().flat_map(|tag| {
        EDGES
            .into_iter()
            .flat_map(move |a| EDGES.into_iter().map(move |b| term(&[131, tag, a, b])))
    });
    std::iter::once(term(&[]))
        .chain(one)
        .chain(two)
        .chain(three)
        .chain(four)
}

/// Small counts, the ends of a byte, some tags, and bytes of UTF-8.
const EDGES: [u8; 18] = [
    0, 1, 2, 3, 8, 9, 70, 97, 104, 106, 107, 119, 127, 128, 131, 194, 237, 255,
];
