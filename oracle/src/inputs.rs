//! Prints request lines for the oracle, and for whatever is compared with
//! it. The same words on the command line always print the same lines.

mod bounds;
mod cuts;
#[allow(dead_code)]
mod hex;
mod make;
mod random;
mod short;
mod wild;

use random::Random;
use std::io::{self, BufWriter, Write};

fn term(input: &[u8]) -> String {
    format!("term {}", hex::word(input))
}

fn header(input: &[u8]) -> String {
    format!("header {}", hex::word(input))
}

fn first(input: &[u8]) -> String {
    format!("first {}", hex::word(input))
}

fn next(input: &[u8]) -> String {
    format!("next {}", hex::word(input))
}

fn utf8(input: &[u8]) -> String {
    format!("utf8 {}", hex::word(input))
}

fn literal(input: &[u8]) -> String {
    format!("literal {}", hex::word(input))
}

fn main() {
    let words: Vec<String> = std::env::args().skip(1).collect();
    let words: Vec<&str> = words.iter().map(String::as_str).collect();
    let Some(requests) = requests(&words) else {
        eprintln!("usage: inputs short, inputs bounds, inputs cuts, or inputs KIND SEED COUNT");
        eprintln!("KIND: valid, damaged, headers, odd, fragments, texts, all");
        std::process::exit(1);
    };
    match print(requests) {
        Ok(()) => {}
        // A reader that has seen enough closes the pipe.
        Err(error) if error.kind() == io::ErrorKind::BrokenPipe => {}
        Err(error) => {
            eprintln!("inputs: {error}");
            std::process::exit(1);
        }
    }
}

fn requests(words: &[&str]) -> Option<Box<dyn Iterator<Item = String>>> {
    match words {
        ["short"] => Some(Box::new(short::requests())),
        ["bounds"] => Some(Box::new(bounds::requests().into_iter())),
        ["cuts"] => Some(Box::new(cuts::requests())),
        [kind, seed, count] => {
            let one: fn(&mut Random) -> String = match *kind {
                "valid" => wild::valid,
                "damaged" => wild::damaged,
                "headers" => wild::headers,
                "odd" => wild::odd,
                "fragments" => wild::fragments,
                "texts" => wild::texts,
                "all" => wild::all,
                _ => return None,
            };
            let mut random = Random::new(seed.parse().ok()?);
            let count: usize = count.parse().ok()?;
            Some(Box::new((0..count).map(move |_| one(&mut random))))
        }
        _ => None,
    }
}

fn print(requests: impl Iterator<Item = String>) -> io::Result<()> {
    let mut out = BufWriter::new(io::stdout().lock());
    for request in requests {
        writeln!(out, "{request}")?;
    }
    out.flush()
}
