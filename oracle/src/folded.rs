//! `oracle folded`: answer lines of another program, each value written as
//! the Rust would hold it. A row becomes a term of the Rust's own kind, with
//! its entries put into the Rust's own map one by one, its number text read
//! by Rust, and is written as the oracle writes any value. Every other line
//! is copied.

use crate::borrowed::BorrowedTerm;
use crate::types::{Atom, BigInt};
use crate::types::{ExternalFun, ExternalPid, ExternalPort, ExternalReference, InternalFun};
use crate::{hex, value};
use std::borrow::Cow;
use std::collections::BTreeMap;
use std::io::{self, BufRead, BufReader, BufWriter, Write};
use std::str::{self, FromStr, Split};

const VALUE: &[u8] = b"answer=0 value=";

/// A read value nests 64 deep at most; where a string stands deepest, the
/// list that the oracle writes for it has its integers one level below.
const DEEPEST: usize = 65;

pub fn serve() -> io::Result<()> {
    let mut answers = BufReader::with_capacity(1 << 16, io::stdin().lock());
    let mut out = BufWriter::with_capacity(1 << 16, io::stdout().lock());
    let mut line = Vec::new();
    while answers.read_until(b'\n', &mut line)? > 0 {
        if line.last() == Some(&b'\n') {
            line.pop();
        }
        match line.strip_prefix(VALUE) {
            None => out.write_all(&line)?,
            Some(row) => match whole(row) {
                None => out.write_all(b"bad row")?,
                Some(term) => {
                    out.write_all(VALUE)?;
                    out.write_all(value::of(&term).as_bytes())?;
                }
            },
        }
        out.write_all(b"\n")?;
        line.clear();
    }
    out.flush()
}

/// The row's one term, none where it isn't one whole term.
fn whole(row: &[u8]) -> Option<BorrowedTerm<'_>> {
    let mut row = Row(str::from_utf8(row).ok()?.split(','));
    let term = row.term(DEEPEST)?;
    row.0.next().is_none().then_some(term)
}

/// The items that are left.
struct Row<'a>(Split<'a, char>);

impl<'a> Row<'a> {
    /// The next term, nested at most so deep.
    fn term(&mut self, deepest: usize) -> Option<BorrowedTerm<'a>> {
        let below = deepest.checked_sub(1)?;
        let (kind, mut fields) = self.item()?;
        let term = match kind {
            "i" => BorrowedTerm::Integer(number::<i32>(fields.next()?)?.into()),
            "f" => {
                let bits = hex::bytes_in(fields.next()?)?.try_into().ok()?;
                BorrowedTerm::Float(f64::from_bits(u64::from_be_bytes(bits)))
            }
            "t" => {
                let text = String::from_utf8(hex::bytes_in(fields.next()?)?).ok()?;
                BorrowedTerm::Float(text.parse().ok()?)
            }
            "a" => BorrowedTerm::Atom(Cow::Owned(name(fields.next()?)?)),
            "b" => BorrowedTerm::Binary(Cow::Owned(hex::bytes_in(fields.next()?)?)),
            "bits" => BorrowedTerm::BitBinary {
                bits: number(fields.next()?)?,
                bytes: Cow::Owned(hex::bytes_in(fields.next()?)?),
            },
            "n" => {
                let is_negative = match fields.next()? {
                    "+" => false,
                    "-" => true,
                    _ => return None,
                };
                BorrowedTerm::BigInt(BigInt::new(is_negative, hex::bytes_in(fields.next()?)?))
            }
            "nil" => BorrowedTerm::Nil,
            "s" => {
                let bytes = hex::bytes_in(fields.next()?)?;
                let integer = |byte| BorrowedTerm::Integer(i64::from(byte));
                BorrowedTerm::List(bytes.into_iter().map(integer).collect())
            }
            "list" => {
                let elements = self.terms(number(fields.next()?)?, below)?;
                match self.term(below)? {
                    BorrowedTerm::Nil => BorrowedTerm::List(elements),
                    tail => BorrowedTerm::ImproperList {
                        elements,
                        tail: Box::new(tail),
                    },
                }
            }
            "tuple" => BorrowedTerm::Tuple(self.terms(number(fields.next()?)?, below)?),
            "map" => {
                let mut map = BTreeMap::new();
                for _ in 0..number::<u32>(fields.next()?)? {
                    let key = self.term(below)?;
                    map.insert(key, self.term(below)?);
                }
                BorrowedTerm::Map(map)
            }
            "pid" => BorrowedTerm::Pid(self.pid(&mut fields)?),
            "port" => {
                let (id, creation) = (number(fields.next()?)?, number(fields.next()?)?);
                BorrowedTerm::Port(ExternalPort::new(self.atom()?, id, creation))
            }
            "ref" => {
                let creation = number(fields.next()?)?;
                let ids = fields.by_ref().map(number).collect::<Option<_>>()?;
                BorrowedTerm::Reference(ExternalReference::new(self.atom()?, creation, ids))
            }
            "fun" => BorrowedTerm::ExternalFun(ExternalFun::new(
                self.atom()?,
                self.atom()?,
                self.integer()?,
            )),
            "fn" => BorrowedTerm::InternalFun(Box::new(self.function(&mut fields, below)?)),
            _ => return None,
        };
        fields.next().is_none().then_some(term)
    }

    fn terms(&mut self, count: u32, deepest: usize) -> Option<Vec<BorrowedTerm<'a>>> {
        (0..count).map(|_| self.term(deepest)).collect()
    }

    /// As the Rust does, each free term is read as any other and then owned.
    fn function(&mut self, fields: &mut Split<'a, char>, deepest: usize) -> Option<InternalFun> {
        let arity = number(fields.next()?)?;
        let uniq = hex::bytes_in(fields.next()?)?.try_into().ok()?;
        let (index, count) = (number(fields.next()?)?, number(fields.next()?)?);
        let (module, old_index, old_uniq) = (self.atom()?, self.integer()?, self.integer()?);
        let ("pid", mut of_pid) = self.item()? else {
            return None;
        };
        let pid = self.pid(&mut of_pid)?;
        let free = (0..count).map(|_| Some(self.term(deepest)?.to_owned()));
        let free = free.collect::<Option<_>>()?;
        of_pid.next().is_none().then(|| {
            InternalFun::new(
                arity, uniq, index, count, module, old_index, old_uniq, pid, free,
            )
        })
    }

    fn pid(&mut self, fields: &mut Split<'a, char>) -> Option<ExternalPid> {
        let (id, serial) = (number(fields.next()?)?, number(fields.next()?)?);
        let creation = number(fields.next()?)?;
        Some(ExternalPid::new(self.atom()?, id, serial, creation))
    }

    fn atom(&mut self) -> Option<Atom> {
        self.only("a").and_then(name).map(Atom::new)
    }

    fn integer<T: FromStr>(&mut self) -> Option<T> {
        self.only("i").and_then(number)
    }

    /// The one field of the next item, which is of this kind.
    fn only(&mut self, kind: &str) -> Option<&'a str> {
        let (found, mut fields) = self.item()?;
        let field = fields.next()?;
        (found == kind && fields.next().is_none()).then_some(field)
    }

    /// The next item's kind, and its fields.
    fn item(&mut self) -> Option<(&'a str, Split<'a, char>)> {
        let mut fields = self.0.next()?.split(':');
        Some((fields.next()?, fields))
    }
}

/// A number as the oracle itself would write it.
fn number<T: FromStr>(text: &str) -> Option<T> {
    let digits = text.strip_prefix('-').unwrap_or(text);
    let is_plain = text == "0" || matches!(digits.as_bytes(), [b'1'..=b'9', ..]);
    is_plain.then(|| text.parse().ok()).flatten()
}

fn name(text: &str) -> Option<String> {
    String::from_utf8(hex::bytes_in(text)?).ok()
}
