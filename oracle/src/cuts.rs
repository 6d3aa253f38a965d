//! Headers of every count of references, with lengths of one byte and of
//! two, new and old references mixed, and for an odd count with either bit
//! where the Rust looks for the long bit; of some counts each header cut at
//! every byte, and with each of its names made bad. What names are there
//! is asked now and then.

use crate::header;

/// Characters of one to four bytes.
const NAMES: [&str; 5] = ["", "a", "spannung", "\u{e9}", "\u{20ac}\u{1f50b}"];

/// A header of so many references, and where its names begin. Two of three
/// are new; slots and names differ from reference to reference. Of an odd
/// count the last reference has segment 1 or 0.
fn whole(count: usize, wide: bool, segment: bool) -> (Vec<u8>, Vec<usize>) {
    let mut input = vec![131, 68, count as u8];
    let mut names = Vec::new();
    if count == 0 {
        return (input, names);
    }
    let mut flags = vec![0u8; count / 2 + 1];
    let new = |index: usize| index % 3 != 1;
    for index in (0..count).filter(|&index| new(index)) {
        flags[index / 2] |= 8 << (4 * (index % 2));
    }
    flags[count / 2] |= u8::from(wide) << (4 * (count % 2));
    if count % 2 == 1 {
        flags[count / 2] |= u8::from(segment);
    }
    input.extend(&flags);
    for index in 0..count {
        input.push((index * 7 + count) as u8);
        if new(index) {
            let name = NAMES[index % NAMES.len()];
            if wide {
                input.push(0);
            }
            input.push(name.len() as u8);
            names.push(input.len());
            input.extend(name.as_bytes());
        }
    }
    (input, names)
}

pub fn requests() -> impl Iterator<Item = String> {
    (0..=255).flat_map(|count| {
        let mut requests = Vec::new();
        for (wide, segment) in [(false, false), (true, true), (false, true), (true, false)] {
            if count % 2 == 0 && wide != segment {
                continue;
            }
            let (input, names) = whole(count, wide, segment);
            requests.push(header(&input));
            if count <= 24 || count >= 254 {
                requests.extend((0..input.len()).map(|end| header(&input[..end])));
                for at in names.into_iter().filter(|&at| at < input.len()) {
                    let mut bad = input.clone();
                    bad[at] = 255;
                    requests.push(header(&bad));
                }
            }
        }
        requests.push(String::from("names"));
        requests
    })
}
