//! The boundaries that document 01 names, each as a request on both sides of
//! the line.

use crate::make::*;
use crate::{first, header, literal, next, term, utf8};

pub fn requests() -> Vec<String> {
    [
        examples(),
        tags(),
        caps(),
        bits(),
        counts(),
        cuts(),
        required_children(),
        places(),
        text_floats(),
        names(),
        lists(),
        empties(),
        nesting(),
        maps(),
        trailing(),
        headers(),
        fragments(),
        texts(),
    ]
    .concat()
}

/// "Records on the bench", and what lies beside each.
fn examples() -> Vec<String> {
    let inputs: [&[u8]; 20] = [
        &[131, 104, 2, 97, 5, 119, 1, 97],
        &[],
        &[131],
        &[130],
        &[131, 106],
        &[131, 106, 0],
        &[131, 104, 2, 97, 5],
        &[131, 88, 104, 2, 106, 106],
        &[131, 104, 1, 106],
        &[131, 98, 255, 255, 255, 255],
        &[131, 98, 128, 0, 0, 0],
        &[131, 98, 127, 255, 255, 255],
        &[131, 77, 0, 0, 0, 0, 8],
        &[131, 77, 0, 0, 0, 0, 7],
        &[131, 108, 0, 152, 150, 128],
        &[131, 108, 0, 152, 150, 129],
        &[131, 116, 0, 15, 66, 65],
        &[131, 116, 0, 15, 66, 64],
        &[131, 116, 0, 0, 0, 2, 97, 1, 97, 7, 98, 0, 0, 0, 1, 97, 8],
        &[131, 116, 0, 0, 0, 1, 97, 1],
    ];
    let mut requests: Vec<String> = inputs.iter().map(|input| term(input)).collect();
    requests.push("clear".into());
    requests.push(header(&[131, 68, 1, 8, 5, 1, 97]));
    requests.push("names".into());
    requests.push(header(&[131, 68, 1, 9, 5, 1, 97]));
    requests.push("names".into());
    requests
}

/// Every tag with nothing after it, as the root and as a child.
fn tags() -> Vec<String> {
    let mut requests = Vec::new();
    for tag in 0..=255 {
        requests.push(term(&[131, tag]));
        requests.push(term(&[131, 104, 2, 106, tag]));
    }
    requests
}

fn caps() -> Vec<String> {
    let mut requests = Vec::new();
    for (tag, cap) in [(105, 10_000_000u32), (108, 10_000_000), (116, 1_000_000)] {
        for count in [cap - 1, cap, cap + 1, u32::MAX] {
            let head = [&[131, tag], &count.to_be_bytes()[..]].concat();
            requests.push(term(&head));
            requests.push(term(&[&head[..], &[97, 1, 97]].concat()));
        }
    }
    for tag in [109, 77] {
        for length in [99_999_999u32, 100_000_000, 100_000_001, u32::MAX] {
            let head = [&[131, tag], &length.to_be_bytes()[..]].concat();
            requests.push(term(&head));
            for bits in [0, 8, 9] {
                requests.push(term(&[&head[..], &[bits]].concat()));
            }
        }
    }
    // These have no cap: the bytes are missing.
    for head in [
        &[131, 111, 255, 255, 255, 255, 0][..],
        &[131, 90, 255, 255, 119, 0, 0, 0, 0, 0],
    ] {
        requests.push(term(head));
    }
    // The free count has none either, and the Rust reserves room for it.
    for count in [2, 10_000_001, u32::MAX] {
        let head = plain_function(count);
        requests.push(term(&whole(&function(&head, &required(), &[small(1)]))));
    }
    requests
}

fn bits() -> Vec<String> {
    let mut requests = Vec::new();
    for bits in [0, 1, 2, 3, 4, 5, 6, 7, 8, 9, 128, 255] {
        for length in 0..=2 {
            let whole = whole(&bit_string(bits, &[0xff, 0x80][..length]));
            requests.push(term(&whole));
            if length > 0 {
                requests.push(term(&whole[..whole.len() - 1]));
            }
        }
    }
    requests
}

/// Counts that announce more than the bytes hold: each child is still read.
fn counts() -> Vec<String> {
    let heads: [&[u8]; 9] = [
        &[104, 255],
        &[105, 0, 0, 1, 0],
        &[105, 0, 152, 150, 128],
        &[108, 0, 0, 1, 0],
        &[108, 0, 152, 150, 128],
        &[116, 0, 0, 1, 0],
        &[116, 0, 15, 66, 64],
        &[104, 3],
        &[108, 0, 0, 0, 2],
    ];
    let children: [&[u8]; 6] = [
        &[],
        &[97],
        &[97, 1],
        &[97, 1, 97, 2],
        &[97, 1, 80],
        &[97, 1, 97, 2, 119, 2, 97],
    ];
    let mut requests = Vec::new();
    for head in heads {
        for some in children {
            requests.push(term(&[&[131], head, some].concat()));
        }
    }
    requests
}

/// Every tag's term broken off after each of its bytes.
fn cuts() -> Vec<String> {
    let mut requests = Vec::new();
    for sample in samples() {
        let whole = whole(&sample);
        requests.extend((2..=whole.len()).map(|end| term(&whole[..end])));
    }
    requests
}

/// Each required child replaced by each kind of term, by numbers at the
/// edges, and by terms that are faulty inside: those enter their own
/// segments, the required child none.
fn required_children() -> Vec<String> {
    let mut children = samples();
    children.extend([-1, 0, 1, 255, 256, i32::MAX, i32::MIN].map(integer));
    children.extend([0, 255].map(small));
    children.push(big(110, 0, &[1]));
    children.push(named(100, b""));
    children.push(named(118, b"x"));
    children.push(list(&[], nil()));
    children.push(vec![104, 2, 97, 1]);
    children.push(vec![104, 2, 97, 1, 80]);
    children.push(vec![108, 0, 0, 0, 1, 97, 1, 80]);
    children.push(vec![
        116, 0, 0, 0, 2, 97, 1, 97, 2, 98, 0, 0, 0, 3, 104, 1, 82,
    ]);
    children.push(vec![88, 116, 0, 0, 0, 1, 119, 1, 97, 80]);
    children.push(vec![119, 1, 0x80]);
    let mut requests = Vec::new();
    for child in children {
        requests.push(term(&whole(&pid(&child, [1, 2, 3]))));
        requests.push(term(&whole(&reference(&child, 3, &[1]))));
        requests.push(term(&whole(&port(&child, 7, 3))));
        for place in 0..3 {
            let mut required = [atom("m"), atom("f"), small(2)];
            required[place] = child.clone();
            requests.push(term(&whole(&export(&required))));
        }
        for place in 0..4 {
            let mut required = required();
            required[place] = child.clone();
            let inside = function(&plain_function(1), &required, &[nil()]);
            requests.push(term(&whole(&tuple(&[inside]))));
        }
    }
    // A function's free child, and one of a function that is itself required.
    let faulty = map(&[atom("a"), small(1), atom("b"), vec![80]]);
    let broken = function(&plain_function(2), &required(), &[nil(), faulty]);
    requests.push(term(&whole(&broken)));
    let mut outer = required();
    outer[1] = broken;
    requests.push(term(&whole(&function(
        &plain_function(1),
        &outer,
        &[nil()],
    ))));
    requests
}

/// Every fault of every row, in every place where a term can stand. Nothing
/// comes after the faulty term, which may be cut short.
fn places() -> Vec<String> {
    let head = function(&plain_function(1), &required(), &[]);
    let [module, index, uniq, _] = required().map(|child| child.len());
    let module_end = 30 + module;
    let before: [&[u8]; 18] = [
        &[],
        &[104, 2, 106],
        &[105, 0, 0, 0, 2, 106],
        &[108, 0, 0, 0, 2, 106],
        &[108, 0, 0, 0, 1, 106],
        &[116, 0, 0, 0, 2, 106, 106],
        &[116, 0, 0, 0, 1, 106],
        &[88],
        &[90, 0, 1],
        &[120],
        &[113],
        &[113, 119, 1, 109],
        &[113, 119, 1, 109, 119, 1, 102],
        &head[..30],
        &head[..module_end],
        &head[..module_end + index],
        &head[..module_end + index + uniq],
        &head,
    ];
    let faults = faults();
    let mut requests = Vec::new();
    for before in before {
        for fault in &faults {
            requests.push(term(&[&[131], before, fault].concat()));
        }
    }
    // And a whole term of every tag, in every place but the required ones.
    let all = samples();
    let keyed: Vec<Bytes> = (0..)
        .map(small)
        .zip(all.clone())
        .flat_map(<[_; 2]>::from)
        .collect();
    let valued: Vec<Bytes> = all.iter().flat_map(|key| [key.clone(), nil()]).collect();
    let count = all.len() as u32;
    let holders = [
        tuple(&all),
        large_tuple(&all),
        list(&all, nil()),
        map(&keyed),
        map(&valued),
        function(&plain_function(count), &required(), &all),
    ];
    requests.extend(holders.iter().map(|holder| term(&whole(holder))));
    requests
}

/// A term that is refused in each field of each row, in each way. Of a field
/// that is missing the last byte alone is.
fn faults() -> Vec<Bytes> {
    // Where the fields of each sample end, those without fields left out.
    let fields: [(u8, &[usize]); 20] = [
        (97, &[2]),
        (98, &[5]),
        (99, &[32]),
        (70, &[9]),
        (100, &[3, 6]),
        (118, &[3, 10]),
        (119, &[2, 4]),
        (104, &[2]),
        (105, &[5]),
        (107, &[3, 5]),
        (108, &[5]),
        (109, &[5, 8]),
        (77, &[5, 6, 8]),
        (110, &[2, 3, 12]),
        (111, &[5, 6, 11]),
        (116, &[5]),
        (88, &[10, 14, 18]),
        (90, &[3, 12, 20]),
        (120, &[14, 18]),
        (112, &[5, 6, 22, 26, 30]),
    ];
    let mut faults = vec![vec![], vec![80]];
    for (tag, ends) in fields {
        let sample = samples().into_iter().find(|sample| sample[0] == tag);
        let sample = sample.expect("a sample of every tag");
        faults.extend(ends.iter().map(|end| sample[..end - 1].to_vec()));
    }
    faults.extend([&b"\xff"[..], b"x"].map(text_float));
    faults.extend([100, 118, 119].map(|tag| named(tag, b"\xff")));
    for (tag, over) in [
        (105, 10_000_001u32),
        (108, 10_000_001),
        (116, 1_000_001),
        (109, 100_000_001),
        (77, 100_000_001),
    ] {
        faults.push([&[tag], &over.to_be_bytes()[..]].concat());
    }
    faults.extend([bit_string(0, b"a"), bit_string(9, b"a"), bit_string(7, b"")]);
    faults.push(pid(&nil(), [1, 2, 3]));
    faults.push(reference(&nil(), 3, &[1]));
    faults.push(port(&nil(), 7, 3));
    for (place, child) in [
        (0, nil()),
        (1, nil()),
        (2, nil()),
        (2, integer(-1)),
        (2, integer(256)),
    ] {
        let mut required = [atom("m"), atom("f"), small(2)];
        required[place] = child;
        faults.push(export(&required));
    }
    for (place, child) in [
        (0, nil()),
        (1, nil()),
        (1, integer(-1)),
        (2, nil()),
        (2, integer(-1)),
        (3, nil()),
    ] {
        let mut required = required();
        required[place] = child;
        faults.push(function(&plain_function(0), &required, &[]));
    }
    faults
}

const TEXTS: [&[u8]; 66] = [
    b"",
    b"0",
    b"1",
    b"9",
    b"1.",
    b".1",
    b".",
    b"+",
    b"-",
    b"+1",
    b"-1",
    b"++1",
    b"+-1",
    b"1.5",
    b"1..5",
    b"1.5.",
    b"1e5",
    b"1E5",
    b"1e",
    b"1e+",
    b"1e-",
    b"1e+5",
    b"1e-5",
    b"1e5.",
    b"1e5e",
    b"e5",
    b".e5",
    b"1.e5",
    b".1e5",
    b"+.1e-05",
    b"inf",
    b"+inf",
    b"-INF",
    b"Infinity",
    b"infinit",
    b"infinityx",
    b"nan",
    b"-NaN",
    b"nanx",
    b"in",
    b" 1",
    b"1 ",
    b"\t1",
    b"1\n",
    b"1_0",
    b"1,5",
    b"0x10",
    b"1f",
    b"1e400",
    b"1e-400",
    b"1e99999999999999999999999999999",
    b"00000001",
    b"-0",
    b"-0.0e-0",
    b"1\0",
    b"1\x001",
    b"\x001",
    b"\0",
    b"1e5\0\0",
    b"i\xcc\x87nf",
    "１".as_bytes(),
    b"1\xc3\xa9",
    b"1\xff",
    b"\xed\xa0\x80",
    b"12345678901234567890123456789.1",
    b"1.50000000000000000000e+00",
];

fn text_floats() -> Vec<String> {
    let mut requests: Vec<String> = TEXTS
        .iter()
        .map(|text| term(&whole(&text_float(text))))
        .collect();
    // The 31st byte is where nothing is left to trim.
    for last in [b'0', b'.', b'e', b'x', 0, 0x80, 0xc3] {
        let mut text = [b'1'; 31];
        text[30] = last;
        requests.push(term(&whole(&text_float(&text))));
    }
    requests
}

const EDGES: [&[u8]; 34] = [
    b"",
    b"a",
    b"\0",
    b"\x7f",
    b"\x80",
    b"\xbf",
    b"\xc0\x80",
    b"\xc1\xbf",
    b"\xc2\x80",
    b"\xc2",
    b"\xc2\x7f",
    b"\xc2\xc0",
    b"\xdf\xbf",
    b"\xe0\x80\x80",
    b"\xe0\x9f\xbf",
    b"\xe0\xa0\x80",
    b"\xe0\xa0",
    b"\xec\xbf\xbf",
    b"\xed\x9f\xbf",
    b"\xed\xa0\x80",
    b"\xed\xbf\xbf",
    b"\xee\x80\x80",
    b"\xef\xbf\xbf",
    b"\xf0\x80\x80\x80",
    b"\xf0\x8f\xbf\xbf",
    b"\xf0\x90\x80\x80",
    b"\xf0\x90\x80",
    b"\xf3\xbf\xbf\xbf",
    b"\xf4\x8f\xbf\xbf",
    b"\xf4\x90\x80\x80",
    b"\xf5\x80\x80\x80",
    b"\xff",
    b"abcdefgh\xc3",
    b"abcdefg\xc3\xa9h",
];

fn names() -> Vec<String> {
    let mut requests = Vec::new();
    for tag in [100, 118, 119] {
        for edge in EDGES {
            requests.push(term(&whole(&named(tag, edge))));
        }
        for length in [254, 255, 256, 300] {
            if tag != 119 || length < 256 {
                requests.push(term(&whole(&named(tag, &vec![b'a'; length]))));
            }
        }
        requests.push(term(&[131, tag, 255, 255, 97]));
    }
    requests
}

fn lists() -> Vec<String> {
    let mut tails = samples();
    tails.push(list(&[], nil()));
    tails.push(list(&[small(3)], small(4)));
    tails.push(string(b""));
    tails.push(vec![80]);
    tails.push(vec![]);
    tails.push(vec![104, 1, 80]);
    let mut requests = Vec::new();
    for elements in [&[][..], &[small(1)], &[small(1), atom("b")]] {
        for tail in &tails {
            requests.push(term(&whole(&list(elements, tail.clone()))));
        }
    }
    requests
}

fn empties() -> Vec<String> {
    let empty = [
        tuple(&[]),
        large_tuple(&[]),
        nil(),
        string(b""),
        list(&[], nil()),
        binary(b""),
        bit_string(8, b""),
        big(110, 0, b""),
        big(110, 1, b""),
        big(111, 255, b""),
        map(&[]),
        reference(&atom(""), 0, &[]),
        function(&plain_function(0), &required(), &[]),
    ];
    let mut requests: Vec<String> = empty.iter().map(|one| term(&whole(one))).collect();
    requests.push(term(&whole(&tuple(&empty))));
    requests.push(term(&whole(&list(&empty, list(&[], nil())))));
    requests
}

/// The deepest nesting that is allowed, 64, by every way to nest; with the
/// innermost term whole, of an unknown tag, and missing. One level deeper
/// the Rust knows no limit, but a missing term is refused as missing first.
fn nesting() -> Vec<String> {
    let ways: [(usize, fn(Bytes) -> Bytes); 10] = [
        (63, |child| tuple(&[child])),
        (63, |child| large_tuple(&[nil(), child])),
        (63, |child| list(&[child], nil())),
        (63, |child| list(&[small(1)], child)),
        (63, |child| list(&[], child)),
        (63, |child| map(&[child, nil()])),
        (63, |child| map(&[nil(), child])),
        (63, |child| pid(&child, [1, 2, 3])),
        (63, |child| export(&[child, atom("f"), small(1)])),
        // The atom of a function's pid lies two levels below the function.
        (62, |child| {
            function(&plain_function(1), &required(), &[child])
        }),
    ];
    let mut requests = Vec::new();
    for (levels, way) in ways {
        for innermost in [atom("a"), vec![80]] {
            let nested = (0..levels).fold(innermost, |child, _| way(child));
            requests.push(term(&whole(&nested)));
        }
    }
    for head in [
        &[104, 1][..],
        &[108, 0, 0, 0, 1],
        &[108, 0, 0, 0, 0],
        &[116, 0, 0, 0, 1],
        &[88],
    ] {
        for levels in [63, 64] {
            requests.push(term(&whole(&head.repeat(levels))));
        }
    }
    // Segments of every kind in one path, beside ones that are removed.
    let each: [fn(Bytes) -> Bytes; 7] = [
        |child| tuple(&[tuple(&[nil()]), child]),
        |child| large_tuple(&[list(&[nil()], nil()), child]),
        |child| list(&[map(&[nil(), nil()]), child], nil()),
        |child| list(&[nil()], child),
        |child| map(&[nil(), nil(), child, nil()]),
        |child| map(&[nil(), nil(), small(1), child]),
        |child| function(&plain_function(2), &required(), &[nil(), child]),
    ];
    for turn in 0..each.len() {
        let order = each.iter().cycle().skip(turn).take(2 * each.len());
        let nested = order.fold(vec![80], |child, around| around(child));
        requests.push(term(&whole(&nested)));
    }
    let value = [116, 0, 0, 0, 1, 106];
    for levels in [1, 2, 63] {
        requests.push(term(&whole(&value.repeat(levels))));
    }
    requests
}

fn maps() -> Vec<String> {
    let one = small(1);
    let keys = [
        [one.clone(), one.clone()],
        [one.clone(), integer(1)],
        [one.clone(), double(1f64.to_bits())],
        [one.clone(), big(110, 0, &[1])],
        [atom("a"), named(100, b"a")],
        [nil(), list(&[], nil())],
        [nil(), string(b"")],
        [nil(), list(&[], small(0))],
        [small(0), big(110, 0, b"")],
        [binary(b"a"), bit_string(8, b"a")],
        [binary(b"a"), bit_string(1, b"b")],
        [list(&[one.clone()], nil()), list(&[one.clone()], small(2))],
        [double(0), double(1 << 63)],
        [double(0x7ff8 << 48), double(0x7ff8 << 48 | 1)],
        [map(&[]), map(&[one.clone(), nil()])],
        [one.clone(), atom("a")].map(|free| function(&plain_function(1), &required(), &[free])),
        [1, 2].map(|arity| {
            let head = Function {
                arity,
                ..plain_function(0)
            };
            function(&head, &required(), &[])
        }),
    ];
    let mut requests = Vec::new();
    for [first, second] in keys {
        let pairs = [first.clone(), small(7), second.clone(), small(8)];
        requests.push(term(&whole(&map(&pairs))));
        // A function's free terms are of the Rust's other kind.
        let inside = function(&plain_function(1), &required(), &[map(&pairs)]);
        requests.push(term(&whole(&inside)));
        // The value's segment holds the offset of the second key.
        let faulty = [first, small(7), second, tuple(&[nil(), vec![80]])];
        requests.push(term(&whole(&map(&faulty))));
    }
    let inner = map(&[atom("x"), nil(), atom("yy"), vec![109, 0, 0, 0, 9]]);
    requests.push(term(&whole(&map(&[inner.clone(), nil()]))));
    requests.push(term(&whole(&map(&[nil(), small(1), one, inner]))));
    requests
}

fn trailing() -> Vec<String> {
    let mut requests = Vec::new();
    for sample in samples() {
        requests.push(term(&[whole(&sample), vec![131]].concat()));
        requests.push(term(&[whole(&sample), whole(&sample)].concat()));
    }
    requests
}

fn headers() -> Vec<String> {
    let inputs: [&[u8]; 27] = [
        &[],
        &[131],
        &[68],
        &[130, 68, 0],
        &[131, 68],
        &[131, 69, 0],
        &[131, 106],
        &[131, 68, 0],
        &[131, 68, 0, 106],
        &[131, 68, 1],
        &[131, 68, 1, 0],
        &[131, 68, 1, 8],
        &[131, 68, 1, 0, 5],
        &[131, 68, 1, 8, 5, 0],
        &[131, 68, 1, 8, 5, 0, 106],
        &[131, 68, 1, 24, 5, 1, 98],
        &[131, 68, 1, 9, 5],
        &[131, 68, 1, 9, 5, 0],
        &[131, 68, 1, 9, 5, 0, 1, 99],
        &[131, 68, 2, 0x88, 0, 1, 1, 97, 2, 2, 98, 99, 0],
        &[131, 68, 2, 0x88, 1, 3, 0, 1, 97, 4, 0, 2, 98, 99],
        &[131, 68, 2, 0x88, 0, 5, 1, 97, 5, 1, 98],
        &[131, 68, 2, 0x88, 0, 6, 1, 97, 7, 1, 0xff],
        &[131, 68, 2, 0x88, 0, 8, 1, 97, 9, 2, 98],
        &[131, 68, 3, 0x80, 8, 1, 2, 2, 0xc3, 0xa9, 3, 1, 97],
        &[131, 68, 3, 0x88, 0, 1, 1, 97, 2, 1, 98, 200],
        &[131, 68, 4, 0, 0x80, 0x0f, 1, 2, 3, 255, 0, 1, 122],
    ];
    let mut requests = vec!["clear".to_string()];
    for input in inputs {
        requests.push(header(input));
        requests.push("names".into());
    }
    // Every reference new, then every one old; the last slot cannot be named.
    let count = 255;
    let flags = [vec![0x88; 127], vec![0x08]].concat();
    let new: Bytes = (0..count)
        .flat_map(|slot| [slot, 1, b'a' + slot % 26])
        .collect();
    requests.push(header(&[&[131, 68, count], &flags[..], &new].concat()));
    requests.push(header(
        &[&[131, 68, count], &flags[..], &new[..new.len() - 1]].concat(),
    ));
    let old: Bytes = (1..=count).collect();
    requests.push(header(&[&[131, 68, count], &[0; 128][..], &old].concat()));
    requests.push("names".into());
    requests.push("clear".into());
    // A name of 255 bytes is the longest; with 256 the input lies outside.
    for length in [255u16, 256] {
        let start = [&[131, 68, 2, 0x88, 1, 9][..], &length.to_be_bytes()].concat();
        let name = vec![b'n'; length.into()];
        requests.push(header(&[&start[..], &name, &[10, 0, 1, 97]].concat()));
        requests.push(header(&[&start[..], &name[1..]].concat()));
        requests.push(header(&[&start[..], &name[1..], &[0x80]].concat()));
    }
    requests.push("names".into());
    requests.push("clear".into());
    requests
}

fn fragments() -> Vec<String> {
    let numbers = [
        0, 0, 2, 168, 0, 0, 5, 83, 255, 255, 255, 255, 255, 255, 255, 254,
    ];
    let whole = [&[131, 69], &numbers[..], &[5, 4, 137, 9]].concat();
    let mut requests = Vec::new();
    for end in 0..=whole.len() {
        requests.push(first(&whole[..end]));
        let mut other = whole[..end].to_vec();
        if end > 1 {
            other[1] = 70;
        }
        requests.push(next(&other));
    }
    for byte in 0..=255 {
        requests.push(first(&[131, byte]));
        requests.push(next(&[byte, 70]));
    }
    for byte in [0, 1, 68, 69, 70, 71, 130, 131, 255] {
        requests.push(first(&[byte]));
        requests.push(first(&[&[131, byte], &whole[2..]].concat()));
        requests.push(next(&[131, byte]));
        requests.push(next(&[&[byte, 70], &whole[2..]].concat()));
    }
    requests
}

fn texts() -> Vec<String> {
    let mut requests: Vec<String> = EDGES.iter().map(|edge| utf8(edge)).collect();
    requests.extend(TEXTS.iter().map(|text| literal(text)));
    requests
}
