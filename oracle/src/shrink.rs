//! Makes a difference smaller: lines, terms and bytes are cut out, then bytes
//! lowered, for as long as the two programs still differ in the same way.
//! All cases are tried together, a round of tries in one run of both.

use crate::{hex, spans};
use std::fmt::{self, Write as _};
use std::fs::{self, File};
use std::io;
use std::ops::Range;
use std::path::PathBuf;
use std::process::{Command, Stdio};

/// A round tries about so many bytes for one case.
const LARGEST_ROUND: usize = 1 << 16;

/// A request: a word, and the hex of bytes where it has any.
#[derive(Clone, PartialEq)]
pub struct Line {
    text: String,
    /// Where the hex begins, the text's length where there is none.
    hex: usize,
}

impl Line {
    pub fn of(text: &str) -> Line {
        Line {
            text: text.to_string(),
            hex: text.find(' ').map_or(text.len(), |space| space + 1),
        }
    }

    pub fn word(&self) -> &str {
        self.text[..self.hex].trim_end()
    }

    pub fn bytes(&self) -> &str {
        &self.text[self.hex..]
    }

    pub fn read(&self) -> Vec<u8> {
        hex::bytes_of(self.bytes()).unwrap_or_default()
    }

    fn with(&self, bytes: &[u8]) -> Line {
        Line {
            text: format!("{}{}", &self.text[..self.hex], hex::word(bytes)),
            hex: self.hex,
        }
    }
}

/// Lines that are asked from no names on; the last one's answers differ.
#[derive(Clone)]
pub struct Case {
    lines: Vec<Line>,
    ours: String,
    theirs: String,
}

/// Nothing is compared where the oracle says so, and where ours has met a
/// limit that the Rust hasn't got.
pub fn is_outside(ours: &str, theirs: &str) -> bool {
    theirs == "outside" || ours == "long" || ours.starts_with("answer=8 ")
}

/// The numbers of both answers, where they have any: what a smaller case
/// must keep.
fn way<'a>(ours: &'a str, theirs: &'a str) -> [Option<&'a str>; 2] {
    [ours, theirs].map(|answer| {
        let word = answer.split(' ').next();
        word.filter(|word| word.starts_with("answer="))
    })
}

impl Case {
    pub fn new(before: &[Line], last: &Line, ours: &str, theirs: &str) -> Case {
        Case {
            lines: [before, std::slice::from_ref(last)].concat(),
            ours: ours.to_string(),
            theirs: theirs.to_string(),
        }
    }

    pub fn is_same(&self, other: &Case) -> bool {
        self.lines == other.lines
    }

    /// Between the same two numbers, in answer to the same word.
    pub fn is_alike(&self, last: &Line, ours: &str, theirs: &str) -> bool {
        let word = self.lines.last().map(Line::word);
        word == Some(last.word()) && way(&self.ours, &self.theirs) == way(ours, theirs)
    }

    fn size(&self) -> usize {
        self.lines.iter().map(|line| line.text.len() + 1).sum()
    }

    /// The longest run of lines or bytes that could be cut out.
    fn longest(&self) -> usize {
        let bytes = self.lines.iter().map(|line| line.bytes().len() / 2);
        bytes.chain([self.lines.len() - 1]).max().unwrap_or(0)
    }

    /// The ways to make it smaller, by their numbers: a term alone, without
    /// a child, and with Nil for one; each run of `size` lines or bytes cut
    /// out; and where that is 1, each byte lowered.
    fn smaller(&self, size: usize, numbers: Range<usize>) -> Vec<Vec<Line>> {
        let mut changes = Vec::new();
        for first in (0..self.lines.len() - 1).step_by(size) {
            changes.push(Change::Lines(first));
        }
        let is_term = self.lines.len() == 1 && self.lines[0].word() == "term";
        let is_accepted = self.theirs.starts_with("answer=0 ");
        if is_term && is_accepted {
            changes.extend(of_terms(&self.lines[0].read()));
        } else if is_term {
            changes.extend((2..self.lines[0].read().len()).rev().map(Change::From));
        }
        for (line, bytes) in self.lines.iter().map(Line::read).enumerate() {
            for first in (0..bytes.len()).step_by(size) {
                changes.push(Change::Bytes(line, first));
            }
            for (at, byte) in bytes.iter().enumerate().filter(|_| size == 1) {
                let lower = [0, byte / 2, byte.saturating_sub(16), byte.saturating_sub(1)];
                let lower = lower.into_iter().filter(|lower| lower < byte);
                changes.extend(lower.map(|lower| Change::Byte(line, at, lower)));
            }
        }
        let wanted = changes.iter().skip(numbers.start).take(numbers.len());
        wanted.map(|change| self.changed(change, size)).collect()
    }

    fn changed(&self, change: &Change, size: usize) -> Vec<Line> {
        let mut lines = self.lines.clone();
        match *change {
            Change::Lines(first) => {
                lines.drain(first..(first + size).min(self.lines.len() - 1));
            }
            Change::From(first) => {
                let bytes = lines[0].read();
                lines[0] = lines[0].with(&[&bytes[..1], &bytes[first..]].concat());
            }
            Change::Whole(ref bytes) => lines[0] = lines[0].with(bytes),
            Change::Bytes(line, first) => {
                let mut bytes = lines[line].read();
                bytes.drain(first..(first + size).min(bytes.len()));
                lines[line] = lines[line].with(&bytes);
            }
            Change::Byte(line, at, lower) => {
                let mut bytes = lines[line].read();
                bytes[at] = lower;
                lines[line] = lines[line].with(&bytes);
            }
        }
        lines
    }
}

/// The smaller inputs that the terms of an accepted one suggest.
fn of_terms(input: &[u8]) -> Vec<Change> {
    let mut spans = spans::of(input);
    spans.sort_by_key(|span| span.end - span.start);
    let mut inputs = Vec::new();
    for span in &spans {
        inputs.push([&[131], &input[span.start..span.end]].concat());
    }
    for span in spans.iter().rev() {
        let (before, after) = (&input[..span.start], &input[span.end..]);
        inputs.push([before, &[106], after].concat());
        if let Some((count, width)) = span.counted {
            let mut without = [before, after].concat();
            let last = (count..count + width).rfind(|&place| without[place] > 0);
            without[last.expect("a child that is counted")] -= 1;
            inputs.push(without);
        }
    }
    inputs.retain(|smaller| smaller.len() < input.len());
    inputs.into_iter().map(Change::Whole).collect()
}

/// Another input; the input from a place on, behind its first byte; lines
/// cut out from one on, bytes of a line likewise; or one byte lowered.
enum Change {
    Whole(Vec<u8>),
    From(usize),
    Lines(usize),
    Bytes(usize, usize),
    Byte(usize, usize, u8),
}

impl fmt::Display for Case {
    fn fmt(&self, out: &mut fmt::Formatter) -> fmt::Result {
        for line in &self.lines {
            writeln!(out, "request {}", line.text)?;
        }
        writeln!(out, "  ours   {}", self.ours)?;
        writeln!(out, "  theirs {}", self.theirs)
    }
}

/// The cases made as small as they come.
pub fn all(programs: &Programs, cases: &[Case]) -> io::Result<Vec<Case>> {
    let mut searches: Vec<Search> = cases.iter().map(Search::new).collect();
    loop {
        let tries: Vec<_> = searches.iter().map(Search::tries).collect();
        if tries.iter().all(Vec::is_empty) {
            return Ok(searches.into_iter().map(|search| search.case).collect());
        }
        let mut answered = programs.answers(&tries.concat())?.into_iter();
        for (search, tries) in searches.iter_mut().zip(tries) {
            let answers: Vec<_> = answered.by_ref().take(tries.len()).collect();
            search.go_on(tries, &answers);
        }
    }
}

/// A case on its way: what is tried next are the ways to make it smaller by
/// `size`, from the one numbered `next` on. After 1 comes 0, the end.
struct Search {
    case: Case,
    size: usize,
    next: usize,
    /// One of this size has been found since the first was tried.
    found: bool,
}

impl Search {
    fn new(case: &Case) -> Search {
        Search {
            size: case.longest(),
            case: case.clone(),
            next: 0,
            found: false,
        }
    }

    /// At least one, as long as there is any.
    fn tries(&self) -> Vec<Vec<Line>> {
        if self.size == 0 {
            return Vec::new();
        }
        let count = 1 + LARGEST_ROUND / self.case.size();
        self.case.smaller(self.size, self.next..self.next + count)
    }

    fn go_on(&mut self, tries: Vec<Vec<Line>>, answers: &[Vec<(String, String)>]) {
        let tried = tries.len();
        let mut each = tries.into_iter().zip(answers).enumerate();
        let smaller = each.find_map(|(at, (lines, answers))| {
            still(&self.case, lines, answers).map(|smaller| (at, smaller))
        });
        if let Some((at, smaller)) = smaller {
            self.case = smaller;
            self.next += at;
            self.found = true;
        } else {
            self.next += tried;
        }
        // After the last of this size: once more from the first where
        // anything was found, else by half.
        if self.size > 0 && self.tries().is_empty() {
            self.size = if self.found { self.size } else { self.size / 2 };
            self.size = self.size.min(self.case.longest());
            (self.next, self.found) = (0, false);
        }
    }
}

/// The lines as a case, where they differ as it does.
fn still(case: &Case, lines: Vec<Line>, answers: &[(String, String)]) -> Option<Case> {
    if answers
        .iter()
        .any(|(ours, theirs)| is_outside(ours, theirs))
    {
        return None;
    }
    let (ours, theirs) = answers.last()?;
    let smaller = Case {
        lines,
        ours: ours.clone(),
        theirs: theirs.clone(),
    };
    let is_alike = way(ours, theirs) == way(&case.ours, &case.theirs);
    (ours != theirs && is_alike).then_some(smaller)
}

/// The two programs, run on files of requests.
pub struct Programs<'a> {
    oracle: PathBuf,
    /// Words for the oracle.
    asking: &'a [String],
    command: &'a [String],
    requests: PathBuf,
}

impl Programs<'_> {
    /// The oracle lies beside this program.
    pub fn new<'a>(asking: &'a [String], command: &'a [String]) -> io::Result<Programs<'a>> {
        let oracle = std::env::current_exe()?.with_file_name("oracle");
        let name = format!("differ.{}", std::process::id());
        Ok(Programs {
            oracle,
            asking,
            command,
            requests: std::env::temp_dir().join(name),
        })
    }

    /// Both answers to every line, ours first.
    fn answers(&self, cases: &[Vec<Line>]) -> io::Result<Vec<Vec<(String, String)>>> {
        let mut requests = String::new();
        for case in cases {
            requests.push_str("clear\n");
            for line in case {
                writeln!(requests, "{}", line.text).expect("a String takes all text");
            }
        }
        fs::write(&self.requests, requests)?;
        let both = self.ours().and_then(|ours| Ok((ours, self.theirs()?)));
        fs::remove_file(&self.requests)?;
        let (ours, theirs) = both?;
        let mut pairs = ours.lines().zip(theirs.lines());
        let answered = cases.iter().map(|case| {
            let asked = pairs.by_ref().take(1 + case.len()).skip(1);
            let answers: Vec<_> = asked.map(|(a, b)| (a.to_string(), b.to_string())).collect();
            if answers.len() == case.len() {
                Ok(answers)
            } else {
                Err(io::Error::other("a try without an answer"))
            }
        });
        answered.collect()
    }

    fn ours(&self) -> io::Result<String> {
        let mut program = Command::new(&self.command[0])
            .args(&self.command[1..])
            .stdin(File::open(&self.requests)?)
            .stdout(Stdio::piped())
            .spawn()?;
        let rows = program.stdout.take().expect("a pipe");
        let folded = Command::new(&self.oracle)
            .arg("folded")
            .stdin(rows)
            .output()?;
        program.wait()?;
        Ok(String::from_utf8_lossy(&folded.stdout).into_owned())
    }

    fn theirs(&self) -> io::Result<String> {
        let answers = Command::new(&self.oracle)
            .args(self.asking)
            .stdin(File::open(&self.requests)?)
            .output()?;
        Ok(String::from_utf8_lossy(&answers.stdout).into_owned())
    }
}
