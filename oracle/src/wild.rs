//! Random requests: whole terms of every tag, the same with some damage,
//! headers, fragments and texts.

use crate::make::*;
use crate::random::Random;
use crate::{first, header, literal, next, term, utf8};

/// The nesting limit of the common domain.
const DEEPEST: usize = 64;

/// Damage may read a name's or a binary's bytes as terms; the room left here
/// keeps what comes of it within the limit.
const DEEPEST_DAMAGED: usize = 40;

pub fn valid(random: &mut Random) -> String {
    term(&whole(&some_term(random, DEEPEST)))
}

pub fn damaged(random: &mut Random) -> String {
    let mut input = whole(&some_term(random, DEEPEST_DAMAGED));
    damage(random, &mut input);
    term(&input)
}

/// Headers whose long bit is the one worth 1 of the last flag byte, as the
/// Rust has it; document 02 has another for an odd count.
pub fn headers(random: &mut Random) -> String {
    some_headers(random, |count| (count, 1))
}

/// Headers of odd counts, with document 02's long bit.
pub fn odd(random: &mut Random) -> String {
    some_headers(random, |count| (count | 1, 16))
}

/// By a drawn count, the count to take and what the long bit is worth in the
/// last flag byte.
fn some_headers(random: &mut Random, by_count: fn(usize) -> (usize, u8)) -> String {
    if random.once_in(25) {
        return "clear".into();
    }
    if random.once_in(6) {
        return "names".into();
    }
    let mut input = some_header(random, by_count);
    if random.once_in(3) {
        damage(random, &mut input);
    }
    header(&input)
}

pub fn fragments(random: &mut Random) -> String {
    let is_first = random.once_in(2);
    let mut input = vec![131, if is_first { 69 } else { 70 }];
    let more = random.between(16, 24);
    input.extend(random.bytes(more));
    match random.below(4) {
        0 => input.truncate(random.below(20)),
        1 => input[random.below(2)] = random.byte(),
        _ => {}
    }
    if is_first {
        first(&input)
    } else {
        next(&input)
    }
}

pub fn texts(random: &mut Random) -> String {
    if random.once_in(2) {
        let mut bytes = name(random, 24);
        if random.once_in(2) {
            damage(random, &mut bytes);
        }
        utf8(&bytes)
    } else {
        let mut bytes = number_text(random);
        if random.once_in(2) {
            damage(random, &mut bytes);
        }
        literal(&bytes)
    }
}

pub fn all(random: &mut Random) -> String {
    match random.below(10) {
        0..=1 => valid(random),
        2..=5 => damaged(random),
        6..=7 => headers(random),
        8 => fragments(random),
        _ => texts(random),
    }
}

/// A term of a size that is mostly small, nested within the limit.
fn some_term(random: &mut Random, deepest: usize) -> Bytes {
    let room = match random.below(50) {
        0 => 4096,
        1..=9 => 400,
        _ => 60,
    };
    let spine = if random.once_in(12) {
        random.below(deepest - 4)
    } else {
        0
    };
    let mut maker = Maker { random, room };
    let inner = maker.term(deepest - spine);
    (0..spine).fold(inner, |child, _| around(random, child))
}

/// One level more of nesting, without a required child that could refuse it.
fn around(random: &mut Random, child: Bytes) -> Bytes {
    match random.below(7) {
        0 => tuple(&[child]),
        1 => large_tuple(&[small(1), child]),
        2 => list(&[child], nil()),
        3 => list(&[nil()], child),
        4 => map(&[child, small(2)]),
        5 => map(&[atom("k"), child]),
        _ => function(&plain_function(1), &required(), &[child]),
    }
}

struct Maker<'a> {
    random: &'a mut Random,
    /// About how many bytes may still be made.
    room: usize,
}

impl Maker<'_> {
    /// A term nested at most `deepest`, which is at least 1.
    fn term(&mut self, deepest: usize) -> Bytes {
        loop {
            let tag = *self.random.pick(&TAGS);
            // A function's pid has an atom, the deepest required child.
            let needs = match tag {
                104 | 105 | 108 | 116 | 88 | 90 | 120 | 113 => 2,
                112 => 3,
                _ => 1,
            };
            let is_roomy = needs == 1 || self.room > 0;
            if needs <= deepest && is_roomy {
                let made = self.tagged(tag, deepest);
                self.room = self.room.saturating_sub(made.len().min(8));
                return made;
            }
        }
    }

    fn tagged(&mut self, tag: u8, deepest: usize) -> Bytes {
        match tag {
            97 => small(self.random.byte()),
            98 => integer(self.integer()),
            99 => text_float(&number_text(self.random)),
            70 => double(self.double()),
            100 | 118 | 119 => self.atom_of(tag),
            104 => tuple(&self.children(1, deepest)),
            105 => large_tuple(&self.children(1, deepest)),
            106 => nil(),
            107 => string(&self.bytes()),
            108 => {
                let elements = self.children(1, deepest);
                let tail = if self.random.once_in(3) {
                    self.term(deepest - 1)
                } else {
                    nil()
                };
                list(&elements, tail)
            }
            109 => binary(&self.bytes()),
            77 => {
                let bytes = self.bytes();
                let bits = if bytes.is_empty() {
                    8
                } else {
                    self.random.between(1, 8) as u8
                };
                bit_string(bits, &bytes)
            }
            110 | 111 => {
                let digits = self.bytes();
                let sign = if self.random.once_in(8) {
                    self.random.byte()
                } else {
                    1
                };
                let sign = if self.random.once_in(2) { 0 } else { sign };
                let most = if tag == 110 { 255 } else { usize::MAX };
                big(tag, sign, &digits[..digits.len().min(most)])
            }
            116 => map(&self.children(2, deepest)),
            88 => self.pid(),
            90 => {
                let ids: Vec<u32> = (0..self.few()).map(|_| self.number()).collect();
                reference(&self.atom(), self.number(), &ids)
            }
            120 => port(&self.atom(), self.random.next(), self.number()),
            113 => export(&[self.atom(), self.atom(), self.unsigned(255)]),
            _ => {
                let required = [
                    self.atom(),
                    self.unsigned(i32::MAX),
                    self.unsigned(i32::MAX),
                    self.pid(),
                ];
                let free = self.children(1, deepest);
                let head = Function {
                    size: self.number(),
                    arity: self.random.byte(),
                    uniq: self.random.bytes(16).try_into().expect("16 bytes"),
                    index: self.number(),
                    count: free.len() as u32,
                };
                function(&head, &required, &free)
            }
        }
    }

    /// Children of one term in groups, more than a few only now and then.
    fn children(&mut self, group: usize, deepest: usize) -> Vec<Bytes> {
        let count = if self.random.once_in(60) {
            self.random.below(255)
        } else {
            self.few()
        };
        let mut children = Vec::new();
        for _ in 0..count.min(self.room / 2 + 1) {
            for _ in 0..group {
                children.push(self.term(deepest - 1));
            }
        }
        children
    }

    fn few(&mut self) -> usize {
        self.random.below(5)
    }

    fn bytes(&mut self) -> Bytes {
        let count = match self.random.below(40) {
            0 => self.random.below(self.room + 1),
            1..=3 => 0,
            _ => self.random.below(12),
        };
        self.random.bytes(count)
    }

    fn atom_of(&mut self, tag: u8) -> Bytes {
        let longest = match (tag, self.random.below(60)) {
            (119, 0) => 255,
            (_, 0) => 400,
            _ => 12,
        };
        named(tag, &name(self.random, longest))
    }

    fn atom(&mut self) -> Bytes {
        let tag = *self.random.pick(&[100, 118, 119]);
        self.atom_of(tag)
    }

    fn pid(&mut self) -> Bytes {
        pid(&self.atom(), [self.number(), self.number(), self.number()])
    }

    fn number(&mut self) -> u32 {
        match self.random.below(4) {
            0 => self.random.next() as u32,
            1 => *self
                .random
                .pick(&[0, 1, 0x7fff_ffff, 0x8000_0000, u32::MAX]),
            _ => self.random.below(1000) as u32,
        }
    }

    fn integer(&mut self) -> i32 {
        let number = self.number() as i32;
        if self.random.once_in(2) {
            number
        } else {
            number.wrapping_neg()
        }
    }

    /// An integer child from 0 to `most`, under either tag.
    fn unsigned(&mut self, most: i32) -> Bytes {
        if self.random.once_in(2) {
            return small(self.random.byte());
        }
        let below = self.random.below(most as usize + 1) as i32;
        integer(*self.random.pick(&[0, 1, most, below]))
    }

    fn double(&mut self) -> u64 {
        let edges = [
            0,
            1 << 63,
            1,
            0x7ff0 << 48,
            0xfff0 << 48,
            0x7ff8 << 48,
            0x3ff0 << 48,
        ];
        match self.random.below(3) {
            0 => *self.random.pick(&edges),
            _ => self.random.next(),
        }
    }
}

/// A good name, of at most so many bytes.
fn name(random: &mut Random, longest: usize) -> Bytes {
    const EDGES: [char; 9] = [
        '\0',
        '\u{7f}',
        '\u{80}',
        '\u{7ff}',
        '\u{800}',
        '\u{d7ff}',
        '\u{e000}',
        '\u{10000}',
        '\u{10ffff}',
    ];
    let length = random.below(longest + 1);
    let is_plain = !random.once_in(3);
    let mut text = String::new();
    while text.len() < length {
        let letter = match random.below(3) {
            0 if !is_plain => *random.pick(&EDGES),
            1 if !is_plain => char::from_u32(random.below(0x11_0000) as u32).unwrap_or('é'),
            _ => char::from(random.between(97, 122) as u8),
        };
        if text.len() + letter.len_utf8() > length {
            break;
        }
        text.push(letter);
    }
    text.into_bytes()
}

/// A number's text that a tag 99 accepts, within 31 bytes, with some of the
/// zero bytes that may follow it.
fn number_text(random: &mut Random) -> Bytes {
    let mut text = random.pick(&["", "", "+", "-"]).to_string();
    if random.once_in(6) {
        for letter in random.pick(&["inf", "infinity", "nan"]).chars() {
            text.push(if random.once_in(2) {
                letter
            } else {
                letter.to_ascii_uppercase()
            });
        }
    } else {
        let before = random.below(6);
        let after = if before == 0 {
            random.between(1, 12)
        } else {
            random.below(12)
        };
        digits(random, &mut text, before);
        if after > 0 || random.once_in(4) {
            text.push('.');
        }
        digits(random, &mut text, after);
        if random.once_in(2) {
            text.push(*random.pick(&['e', 'E']));
            text.push_str(*random.pick(&["", "+", "-"]));
            let count = random.between(1, 4);
            digits(random, &mut text, count);
        }
    }
    let mut bytes = text.into_bytes();
    let zeros = random.below(4);
    bytes.resize((bytes.len() + zeros).min(31), 0);
    bytes
}

fn digits(random: &mut Random, text: &mut String, count: usize) {
    for _ in 0..count {
        text.push(char::from(random.between(48, 57) as u8));
    }
}

/// A header as document 01 lays it out, with its long bit, and some bytes
/// after it.
fn some_header(random: &mut Random, by_count: fn(usize) -> (usize, u8)) -> Bytes {
    let count = match random.below(12) {
        0 => 0,
        1 => random.below(256),
        2 => *random.pick(&[254, 255]),
        3..=4 => random.below(32),
        _ => random.between(1, 5),
    };
    let (count, long) = by_count(count);
    let mut input = vec![131, 68, count as u8];
    if count > 0 {
        let mut flags = random.bytes(count / 2 + 1);
        if random.once_in(2) {
            // Without segment numbers, and mostly with short lengths.
            flags.iter_mut().for_each(|byte| *byte &= 0x88);
            *flags.last_mut().expect("a flag byte") |= long * u8::from(random.once_in(4));
        }
        let wide = flags[flags.len() - 1] & long != 0;
        input.extend(&flags);
        let slots = *random.pick(&[2, 16, 256]);
        for index in 0..count {
            input.push(random.below(slots) as u8);
            if flags[index / 2] >> (4 * (index % 2)) & 8 == 0 {
                continue;
            }
            let longest = if random.once_in(200) {
                if wide { 300 } else { 255 }
            } else {
                8
            };
            let name = name(random, longest);
            let length = (name.len() as u16).to_be_bytes();
            input.extend(if wide { &length[..] } else { &length[1..] });
            input.extend(name);
        }
    }
    let after = random.below(6);
    if random.once_in(3) {
        input.extend(random.bytes(after));
    } else {
        input.extend(*random.pick(&[&[][..], &[106], &[104, 1, 82, 0], &[97, 5], &[97]]));
    }
    input
}

/// One to three changes of the kinds that go wrong on a line or on a disk.
fn damage(random: &mut Random, input: &mut Bytes) {
    let times = if random.once_in(3) {
        random.between(2, 3)
    } else {
        1
    };
    for _ in 0..times {
        if input.is_empty() {
            input.push(random.byte());
        }
        let at = random.below(input.len());
        match random.below(9) {
            0 => input[at] = random.byte(),
            1 => input[at] ^= 1 << random.below(8),
            2 => input[at] = *random.pick(&[0, 1, 2, 127, 128, 131, 255]),
            3 => input[at] = *random.pick(&TAGS),
            4 => input.truncate(at),
            5 => {
                let end = (at + random.between(1, 4)).min(input.len());
                input.drain(at..end);
            }
            6 => {
                let count = random.between(1, 4);
                let more = random.bytes(count);
                input.splice(at..at, more);
            }
            7 => {
                let count = random.between(1, 8);
                let more = random.bytes(count);
                input.extend(more);
            }
            _ => change_length(random, input, at),
        }
    }
}

/// Takes the next byte from `at` on that could be a tag, and moves the
/// length or count after it.
fn change_length(random: &mut Random, input: &mut Bytes, at: usize) {
    let Some(tag) = (at..input.len()).find(|&place| TAGS.contains(&input[place])) else {
        return;
    };
    let width = match input[tag] {
        104 | 110 | 119 => 1,
        100 | 118 | 107 | 90 => 2,
        _ => 4,
    };
    let place = tag + random.between(1, width);
    if let Some(byte) = input.get_mut(place) {
        *byte = match random.below(4) {
            0 => byte.wrapping_add(1),
            1 => byte.wrapping_sub(1),
            2 => 0,
            _ => 255,
        };
    }
}
