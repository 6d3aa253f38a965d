//! The row of a value: docs/REQUESTS.md has the items. The Rust has two
//! kinds of term, since a function's free terms are owned; both are written
//! from their own fields, maps in the order that each map has.

use crate::borrowed::BorrowedTerm;
use crate::hex;
use crate::term::OwnedTerm;
use crate::types::{ExternalPid, InternalFun};
use std::fmt::{Display, Write};

macro_rules! written {
    ($name:ident, $term:ident) => {
        fn $name(row: &mut Row, term: &$term) {
            match term {
                $term::Integer(number) => row.item(format_args!("i:{number}")),
                $term::Float(double) => row.bytes("f:", &double.to_bits().to_be_bytes()),
                $term::Atom(name) => row.bytes("a:", name.as_bytes()),
                $term::Binary(bytes) => row.bytes("b:", bytes),
                $term::BitBinary { bytes, bits } => {
                    row.bytes(format_args!("bits:{bits}:"), bytes);
                }
                $term::BigInt(number) if number.sign.is_negative() => {
                    row.bytes("n:-:", &number.digits);
                }
                $term::BigInt(number) => row.bytes("n:+:", &number.digits),
                $term::Nil => row.item("nil"),
                $term::List(elements) => {
                    row.item(format_args!("list:{}", elements.len()));
                    elements.iter().for_each(|element| $name(row, element));
                    row.item("nil");
                }
                $term::ImproperList { elements, tail } => {
                    row.item(format_args!("list:{}", elements.len()));
                    elements.iter().for_each(|element| $name(row, element));
                    $name(row, tail);
                }
                $term::Tuple(elements) => {
                    row.item(format_args!("tuple:{}", elements.len()));
                    elements.iter().for_each(|element| $name(row, element));
                }
                $term::Map(map) => {
                    row.item(format_args!("map:{}", map.len()));
                    for (key, value) in map {
                        $name(row, key);
                        $name(row, value);
                    }
                }
                $term::Pid(pid) => push_pid(row, pid),
                $term::Reference(reference) => {
                    row.item(format_args!("ref:{}", reference.creation));
                    for id in &reference.ids {
                        row.more(format_args!(":{id}"));
                    }
                    row.bytes("a:", reference.node.as_bytes());
                }
                $term::Port(port) => {
                    row.item(format_args!("port:{}:{}", port.id, port.creation));
                    row.bytes("a:", port.node.as_bytes());
                }
                $term::ExternalFun(export) => {
                    row.item("fun");
                    row.bytes("a:", export.module.as_bytes());
                    row.bytes("a:", export.function.as_bytes());
                    row.item(format_args!("i:{}", export.arity));
                }
                $term::InternalFun(function) => push_function(row, function),
                $term::String(_) => panic!("reading never makes a String"),
            }
        }
    };
}

written!(push_borrowed, BorrowedTerm);
written!(push_owned, OwnedTerm);

pub fn of(term: &BorrowedTerm) -> String {
    let mut row = Row(String::new());
    push_borrowed(&mut row, term);
    row.0
}

/// Items, joined by commas.
struct Row(String);

impl Row {
    fn item(&mut self, text: impl Display) {
        if !self.0.is_empty() {
            self.0.push(',');
        }
        self.more(text);
    }

    fn more(&mut self, text: impl Display) {
        write!(self.0, "{text}").expect("a String takes all text");
    }

    fn bytes(&mut self, kind: impl Display, bytes: &[u8]) {
        self.item(kind);
        hex::push(&mut self.0, bytes);
    }
}

fn push_pid(row: &mut Row, pid: &ExternalPid) {
    row.item(format_args!(
        "pid:{}:{}:{}",
        pid.id, pid.serial, pid.creation
    ));
    row.bytes("a:", pid.node.as_bytes());
}

fn push_function(row: &mut Row, function: &InternalFun) {
    row.bytes(format_args!("fn:{}:", function.arity), &function.uniq);
    row.more(format_args!(":{}:{}", function.index, function.num_free));
    row.bytes("a:", function.module.as_bytes());
    row.item(format_args!("i:{}", function.old_index));
    row.item(format_args!("i:{}", function.old_uniq));
    push_pid(row, &function.pid);
    for term in &function.free_vars {
        push_owned(row, term);
    }
}
