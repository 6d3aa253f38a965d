//! The oracle: answers request lines by asking the Rust reader that
//! Sillthread was ported from. It judges nothing itself; where it computes,
//! it only turns the Rust's answers into document 01's words.

// The Rust's own modules, put beside this file by the build.
#[allow(dead_code)]
#[path = "erltf/borrowed.rs"]
mod borrowed;
#[allow(dead_code)]
#[path = "erltf/decoder.rs"]
mod decoder;
#[allow(dead_code)]
#[path = "erltf/errors.rs"]
mod errors;
#[allow(dead_code)]
#[path = "erltf/tags.rs"]
mod tags;
#[allow(dead_code)]
#[path = "erltf/term.rs"]
mod term;
#[allow(dead_code)]
#[path = "erltf/types.rs"]
mod types;

mod folded;
mod fragment;
mod header;
mod hex;
mod memory;
mod numbers;
mod reading;
mod requests;
mod sweep;
mod text;
mod value;

use std::thread;

/// The Rust reads, compares and drops terms by recursion with no limit, so
/// the stack is as large as the machine lets us have.
const LARGEST_STACK: usize = 1 << 36;
const SMALLEST_STACK: usize = 1 << 23;

fn main() {
    let words: Vec<String> = std::env::args().skip(1).collect();
    let words: Vec<&str> = words.iter().map(String::as_str).collect();
    let work: fn() -> std::io::Result<()> = match words.as_slice() {
        [] => requests::as_they_stand,
        ["meant"] => requests::as_meant,
        ["folded"] => folded::serve,
        ["sweep", "utf8"] => sweep::utf8,
        ["sweep", "literal"] => sweep::literal,
        _ => {
            eprintln!("usage: oracle < REQUESTS, oracle meant < REQUESTS, oracle folded < ANSWERS, oracle sweep utf8, oracle sweep literal");
            std::process::exit(1);
        }
    };
    let mut size = LARGEST_STACK;
    let running = loop {
        match thread::Builder::new().stack_size(size).spawn(work) {
            Ok(running) => break running,
            Err(_) if size > SMALLEST_STACK => size /= 2,
            Err(error) => panic!("no thread could be started: {error}"),
        }
    };
    match running.join() {
        Ok(Ok(())) => {}
        // A reader that has seen enough closes the pipe.
        Ok(Err(error)) if error.kind() == std::io::ErrorKind::BrokenPipe => {}
        Ok(Err(error)) => {
            eprintln!("oracle: {error}");
            std::process::exit(1);
        }
        Err(_) => std::process::exit(1),
    }
}
