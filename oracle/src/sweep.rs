//! Whole sweeps over short texts, printed without loss: a row holds the
//! answers over one byte or one pattern as runs, and is printed only where
//! it differs from the row before it.

use crate::text;
use std::io::{self, BufWriter, Write};

pub fn utf8() -> io::Result<()> {
    let mut out = BufWriter::new(io::stdout().lock());
    writeln!(out, "length 0")?;
    writeln!(out, "- {}", runs([text::good(b"")].into_iter()))?;
    let mut strings = 1;
    let mut section = |title: &str, prefixes: &mut dyn Iterator<Item = Vec<u8>>, last: &[u8]| {
        writeln!(out, "{title}")?;
        let mut rows = Rows::new();
        for prefix in prefixes {
            let mut bytes = prefix.clone();
            bytes.push(0);
            let row = last.iter().map(|&byte| {
                bytes[prefix.len()] = byte;
                text::good(&bytes)
            });
            if let Some(runs) = rows.changed(row) {
                writeln!(out, "{} {runs}", crate::hex::word(&prefix))?;
            }
            strings += last.len();
        }
        io::Result::Ok(())
    };
    let all: Vec<u8> = (0..=255).collect();
    section("length 1", &mut [vec![]].into_iter(), &all)?;
    section("length 2", &mut (0..=255).map(|a| vec![a]), &all)?;
    section(
        "length 3",
        &mut (0..=65535u16).map(|ab| ab.to_be_bytes().to_vec()),
        &all,
    )?;
    const EDGES: [u8; 14] = [
        0x7f, 0x80, 0x81, 0x8e, 0x8f, 0x90, 0x91, 0x9e, 0x9f, 0xa0, 0xa1, 0xbe, 0xbf, 0xc0,
    ];
    let mut prefixes = (0xe0..=0xf5).flat_map(|lead| {
        EDGES
            .iter()
            .flat_map(move |&second| EDGES.iter().map(move |&third| vec![lead, second, third]))
    });
    section("length 4", &mut prefixes, &EDGES)?;
    writeln!(out, "strings={strings}")?;
    out.flush()
}

pub fn literal() -> io::Result<()> {
    let mut out = BufWriter::new(io::stdout().lock());
    writeln!(out, "texts")?;
    let texts = texts(&mut out)?;
    writeln!(out, "texts={texts}")?;
    writeln!(out, "words")?;
    let mut tried = 0;
    for word in ["inf", "infinity", "nan"] {
        for sign in ["", "+", "-"] {
            tried += words(&mut out, sign, word)?;
        }
    }
    writeln!(out, "words={tried}")?;
    out.flush()
}

const LETTERS: &[u8; 11] = b"01.eE+-inf\0";
const LONGEST: usize = 5;

/// All texts over the letters, shorter ones first; prints the accepted ones
/// and answers how many there were.
fn texts(out: &mut impl Write) -> io::Result<usize> {
    let mut count = 0;
    for length in 0..=LONGEST {
        for number in 0..LETTERS.len().pow(length as u32) {
            let place = |index: usize| number / LETTERS.len().pow((length - 1 - index) as u32);
            let bytes: Vec<u8> = (0..length)
                .map(|index| LETTERS[place(index) % LETTERS.len()])
                .collect();
            if text::is_literal(&bytes) {
                let shown: String = bytes
                    .iter()
                    .map(|&byte| if byte == 0 { '_' } else { byte.into() })
                    .collect();
                writeln!(out, "{shown}")?;
            }
            count += 1;
        }
    }
    Ok(count)
}

/// One word with its sign: whole, cut, and with one byte changed, in every
/// pattern of letter case. Answers how many texts were tried.
fn words(out: &mut impl Write, sign: &str, word: &str) -> io::Result<usize> {
    let patterns = 1usize << word.len();
    let shown = format!("{sign}{word}");
    let length = shown.len();
    let judged = |bytes: &[u8]| usize::from(text::is_literal(bytes));
    let whole = |pattern: usize| {
        let mut bytes = shown.clone().into_bytes();
        for letter in 0..word.len() {
            if pattern >> letter & 1 == 1 {
                bytes[sign.len() + letter].make_ascii_uppercase();
            }
        }
        bytes
    };
    let row = runs((0..patterns).map(|pattern| judged(&whole(pattern))));
    writeln!(out, "{shown} whole {row}")?;
    for cut in 0..length {
        let row = runs((0..patterns).map(|pattern| judged(&whole(pattern)[..cut])));
        writeln!(out, "{shown} cut {cut} {row}")?;
    }
    for place in 0..length {
        let mut rows = Rows::new();
        for pattern in 0..patterns {
            let mut bytes = whole(pattern);
            let row = (0..=255).map(|byte| {
                bytes[place] = byte;
                judged(&bytes)
            });
            if let Some(runs) = rows.changed(row) {
                writeln!(out, "{shown} changed {place} pattern {pattern} {runs}")?;
            }
        }
    }
    Ok(patterns * (1 + length + length * 256))
}

/// The row before, to tell where a row is worth printing.
struct Rows(Option<String>);

impl Rows {
    fn new() -> Self {
        Rows(None)
    }

    fn changed(&mut self, row: impl Iterator<Item = usize>) -> Option<&str> {
        let row = Some(runs(row));
        if row == self.0 {
            return None;
        }
        self.0 = row;
        self.0.as_deref()
    }
}

fn runs(row: impl Iterator<Item = usize>) -> String {
    let mut found: Vec<(usize, usize)> = Vec::new();
    for answer in row {
        match found.last_mut() {
            Some((same, count)) if *same == answer => *count += 1,
            _ => found.push((answer, 1)),
        }
    }
    let shown: Vec<String> = found
        .iter()
        .map(|(answer, count)| format!("{answer}*{count}"))
        .collect();
    shown.join(" ")
}
