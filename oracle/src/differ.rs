//! `differ REQUESTS OURS THEIRS COMMAND...` compares the answers of two
//! programs line by line. THEIRS are the oracle's, OURS those of the program
//! that COMMAND runs, after `oracle folded`. It counts what was compared, and
//! makes each difference smaller before it is printed. It ends with 1 where
//! anything differs. With the word `meant` before all, THEIRS are those of
//! `oracle meant`.

#[allow(dead_code)]
mod hex;
#[allow(dead_code)]
mod make;
mod shrink;
mod spans;

use shrink::{Case, Line, Programs};
use std::collections::BTreeMap;
use std::fs::File;
use std::io::{self, BufRead, BufReader};

/// So many differences are made smaller and printed, and so many of them
/// between the same two numbers.
const SHRUNK: usize = 20;
const ALIKE: usize = 2;

fn main() {
    let words: Vec<String> = std::env::args().skip(1).collect();
    let is_meant = words.first().is_some_and(|word| word == "meant");
    let (asking, words) = words.split_at(usize::from(is_meant));
    let [requests, ours, theirs, command @ ..] = words else {
        return usage();
    };
    if command.is_empty() {
        return usage();
    }
    let compared = compare([requests, ours, theirs]).and_then(|compared| {
        report(&compared, &Programs::new(asking, command)?).map(|()| compared.different)
    });
    match compared {
        Ok(0) => {}
        Ok(_) => std::process::exit(1),
        Err(error) => {
            eprintln!("differ: {error}");
            std::process::exit(2);
        }
    }
}

fn usage() {
    eprintln!("usage: differ [meant] REQUESTS OURS THEIRS COMMAND...");
    std::process::exit(2);
}

#[derive(Default)]
struct Compared {
    kinds: BTreeMap<String, Kind>,
    /// Terms in accepted values, by tag.
    tags: BTreeMap<u8, usize>,
    outside: usize,
    different: usize,
    /// The first ones, with all that they may depend on.
    cases: Vec<Case>,
}

#[derive(Default)]
struct Kind {
    compared: usize,
    accepted: usize,
}

fn compare(files: [&String; 3]) -> io::Result<Compared> {
    let [requests, ours, theirs] = files.map(|file| File::open(file).map(BufReader::new));
    let mut ours = ours?.lines();
    let mut theirs = theirs?.lines();
    let mut compared = Compared::default();
    // What the names rest on: the headers since they were last cleared.
    let mut headers: Vec<Line> = Vec::new();
    for request in requests?.lines() {
        let request = Line::of(&request?);
        let (Some(ours), Some(theirs)) = (ours.next(), theirs.next()) else {
            return Err(io::Error::other("a request without an answer"));
        };
        compared.line(&request, &ours?, &theirs?, &headers);
        match request.word() {
            "header" => headers.push(request),
            "clear" => headers.clear(),
            _ => {}
        }
    }
    if ours.next().is_some() || theirs.next().is_some() {
        return Err(io::Error::other("an answer without a request"));
    }
    Ok(compared)
}

impl Compared {
    fn line(&mut self, request: &Line, ours: &str, theirs: &str, headers: &[Line]) {
        if shrink::is_outside(ours, theirs) {
            self.outside += 1;
            return;
        }
        let kind = self.kinds.entry(request.word().to_string()).or_default();
        kind.compared += 1;
        kind.accepted += usize::from(theirs.starts_with("answer=0 "));
        if theirs.starts_with("answer=0 value=") {
            let input = request.read();
            for span in spans::of(&input) {
                *self.tags.entry(input[span.start]).or_default() += 1;
            }
        }
        if ours != theirs {
            self.different += 1;
            let before = match request.word() {
                "header" | "names" => headers,
                _ => &[],
            };
            let alike = |case: &&Case| case.is_alike(request, ours, theirs);
            if self.cases.len() < SHRUNK && self.cases.iter().filter(alike).count() < ALIKE {
                self.cases.push(Case::new(before, request, ours, theirs));
            }
        }
    }
}

fn report(compared: &Compared, programs: &Programs) -> io::Result<()> {
    let shrunk = shrink::all(programs, &compared.cases)?;
    let mut times: Vec<(&Case, usize)> = Vec::new();
    for case in &shrunk {
        match times.iter_mut().find(|(other, _)| other.is_same(case)) {
            Some((_, times)) => *times += 1,
            None => times.push((case, 1)),
        }
    }
    for (case, times) in times {
        print!("{case}");
        println!("  {times} of the {} looked at came to this", shrunk.len());
    }
    let total = |of: fn(&Kind) -> usize| compared.kinds.values().map(of).sum::<usize>();
    println!(
        "{} requests compared, {} of them accepted; by kind, with those accepted:",
        total(|kind| kind.compared),
        total(|kind| kind.accepted)
    );
    for (word, kind) in &compared.kinds {
        println!("  {word} {} {}", kind.compared, kind.accepted);
    }
    if compared.kinds.contains_key("term") {
        println!("terms in the accepted values, by tag:");
        for tag in make::TAGS {
            println!("  {tag} {}", compared.tags.get(&tag).unwrap_or(&0));
        }
    }
    println!("{} left out as Deep or long", compared.outside);
    println!("{} different", compared.different);
    Ok(())
}
