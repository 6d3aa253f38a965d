//! One answer line for each request line; docs/REQUESTS.md has the forms.

use crate::header::{Asking, Names};
use crate::{fragment, hex, reading, text};
use std::io::{self, BufRead, BufReader, BufWriter, Write};

pub fn as_they_stand() -> io::Result<()> {
    serve(Asking::AsItStands)
}

pub fn as_meant() -> io::Result<()> {
    serve(Asking::AsMeant)
}

fn serve(asking: Asking) -> io::Result<()> {
    let mut requests = BufReader::with_capacity(1 << 16, io::stdin().lock());
    let mut answers = BufWriter::new(io::stdout().lock());
    let mut names = Names::new(asking);
    let mut line = Vec::new();
    while requests.read_until(b'\n', &mut line)? > 0 {
        if line.last() == Some(&b'\n') {
            line.pop();
        }
        let answer = answer(&line, &mut names).unwrap_or_else(|| "unknown".into());
        writeln!(answers, "{answer}")?;
        line.clear();
        // Whoever waits for an answer before the next request gets it now.
        if requests.buffer().is_empty() {
            answers.flush()?;
        }
    }
    answers.flush()
}

fn answer(line: &[u8], names: &mut Names) -> Option<String> {
    let line = std::str::from_utf8(line).ok()?;
    match line {
        "names" => return Some(show(names)),
        "clear" => {
            names.clear();
            return Some(show(names));
        }
        _ => {}
    }
    let (word, input) = line.split_once(' ')?;
    let input = hex::bytes_of(input)?;
    Some(match word {
        "term" => reading::answer(&input),
        "header" => names.read(&input),
        "first" => fragment::first(&input),
        "next" => fragment::next(&input),
        "utf8" => format!("good={}", text::good(&input)),
        "literal" => format!("literal={}", u8::from(text::is_literal(&input))),
        _ => return None,
    })
}

fn show(names: &Names) -> String {
    let mut text = format!("names={}", names.filled().count());
    for (slot, name) in names.filled() {
        text.push_str(&format!(" {slot}={}", hex::word(name.as_bytes())));
    }
    text
}
