//! Terms as bytes, one function for each layout of document 01. Lengths and
//! counts are those of what is passed; children are whole terms.

pub const TAGS: [u8; 22] = [
    97, 98, 99, 70, 100, 118, 119, 104, 105, 106, 107, 108, 109, 77, 110, 111, 116, 88, 90, 120,
    113, 112,
];

pub type Bytes = Vec<u8>;

fn joined(parts: &[&[u8]]) -> Bytes {
    parts.concat()
}

fn four(number: usize) -> [u8; 4] {
    (number as u32).to_be_bytes()
}

pub fn whole(term: &[u8]) -> Bytes {
    joined(&[&[131], term])
}

pub fn small(number: u8) -> Bytes {
    vec![97, number]
}

pub fn integer(number: i32) -> Bytes {
    joined(&[&[98], &number.to_be_bytes()])
}

/// The text is cut or filled with zero bytes to its 31.
pub fn text_float(text: &[u8]) -> Bytes {
    let mut text = text.to_vec();
    text.resize(31, 0);
    joined(&[&[99], &text])
}

pub fn double(bits: u64) -> Bytes {
    joined(&[&[70], &bits.to_be_bytes()])
}

/// Tag 119 has a length of one byte, 100 and 118 have two.
pub fn named(tag: u8, name: &[u8]) -> Bytes {
    let length = (name.len() as u16).to_be_bytes();
    let length = if tag == 119 {
        &length[1..]
    } else {
        &length[..]
    };
    joined(&[&[tag], length, name])
}

pub fn atom(name: &str) -> Bytes {
    named(119, name.as_bytes())
}

pub fn tuple(children: &[Bytes]) -> Bytes {
    joined(&[&[104, children.len() as u8], &children.concat()])
}

pub fn large_tuple(children: &[Bytes]) -> Bytes {
    joined(&[&[105], &four(children.len()), &children.concat()])
}

pub fn nil() -> Bytes {
    vec![106]
}

pub fn string(bytes: &[u8]) -> Bytes {
    joined(&[&[107], &(bytes.len() as u16).to_be_bytes(), bytes])
}

pub fn list(elements: &[Bytes], tail: Bytes) -> Bytes {
    joined(&[&[108], &four(elements.len()), &elements.concat(), &tail])
}

pub fn binary(bytes: &[u8]) -> Bytes {
    joined(&[&[109], &four(bytes.len()), bytes])
}

pub fn bit_string(bits: u8, bytes: &[u8]) -> Bytes {
    joined(&[&[77], &four(bytes.len()), &[bits], bytes])
}

/// Tag 110 has a length of one byte, 111 has four.
pub fn big(tag: u8, sign: u8, digits: &[u8]) -> Bytes {
    let length = four(digits.len());
    let length = if tag == 110 {
        &length[3..]
    } else {
        &length[..]
    };
    joined(&[&[tag], length, &[sign], digits])
}

/// Keys and values in turn.
pub fn map(children: &[Bytes]) -> Bytes {
    joined(&[&[116], &four(children.len() / 2), &children.concat()])
}

pub fn pid(node: &[u8], numbers: [u32; 3]) -> Bytes {
    joined(&[&[88], node, &numbers.map(u32::to_be_bytes).concat()])
}

pub fn reference(node: &[u8], creation: u32, ids: &[u32]) -> Bytes {
    let ids: Vec<[u8; 4]> = ids.iter().map(|id| id.to_be_bytes()).collect();
    let count = (ids.len() as u16).to_be_bytes();
    joined(&[&[90], &count, node, &creation.to_be_bytes(), &ids.concat()])
}

pub fn port(node: &[u8], id: u64, creation: u32) -> Bytes {
    joined(&[&[120], node, &id.to_be_bytes(), &creation.to_be_bytes()])
}

pub fn export(required: &[Bytes; 3]) -> Bytes {
    joined(&[&[113], &required.concat()])
}

/// The fixed part of a function before its required children.
pub struct Function {
    pub size: u32,
    pub arity: u8,
    pub uniq: [u8; 16],
    pub index: u32,
    pub count: u32,
}

pub fn function(head: &Function, required: &[Bytes; 4], free: &[Bytes]) -> Bytes {
    joined(&[
        &[112],
        &head.size.to_be_bytes(),
        &[head.arity],
        &head.uniq,
        &head.index.to_be_bytes(),
        &head.count.to_be_bytes(),
        &required.concat(),
        &free.concat(),
    ])
}

/// One plain term of every tag, in the order of `TAGS`.
pub fn samples() -> Vec<Bytes> {
    let node = atom("n@h");
    vec![
        small(5),
        integer(-5),
        text_float(b"1.50000000000000000000e+00"),
        double(1.5f64.to_bits()),
        named(100, b"old"),
        named(118, "größe".as_bytes()),
        atom("ok"),
        tuple(&[small(1), nil()]),
        large_tuple(&[small(1), nil()]),
        nil(),
        string(b"ab"),
        list(&[small(1), small(2)], nil()),
        binary(&[1, 2, 255]),
        bit_string(3, &[1, 0xa0]),
        big(110, 1, &[1, 2, 3, 4, 5, 6, 7, 8, 9]),
        big(111, 0, &[0, 0, 0, 0, 1]),
        map(&[atom("k"), small(1), small(2), nil()]),
        pid(&node, [1, 2, 3]),
        reference(&node, 3, &[1, 2]),
        port(&node, 7, 3),
        export(&[atom("m"), atom("f"), small(2)]),
        function(&plain_function(1), &required(), &[small(9)]),
    ]
}

pub fn plain_function(count: u32) -> Function {
    Function {
        size: 70,
        arity: 1,
        uniq: *b"0123456789abcdef",
        index: 4,
        count,
    }
}

pub fn required() -> [Bytes; 4] {
    [
        atom("m"),
        small(0),
        integer(77),
        pid(&atom("n@h"), [1, 2, 3]),
    ]
}
