//! Where the terms of an accepted input stand.

pub struct Span {
    pub start: usize,
    pub end: usize,
    /// Where its parent's count stands and how wide that is, for a child
    /// that is counted there.
    pub counted: Option<(usize, usize)>,
}

/// The terms of an accepted input, in order of place.
pub fn of(input: &[u8]) -> Vec<Span> {
    let mut spans = Vec::new();
    let end = Walk(input, &mut spans).term(1, None);
    assert_eq!(end, input.len(), "an accepted input is one term");
    spans
}

struct Walk<'a>(&'a [u8], &'a mut Vec<Span>);

impl Walk<'_> {
    /// Where the term at `at` ends.
    fn term(&mut self, at: usize, counted: Option<(usize, usize)>) -> usize {
        let index = self.1.len();
        self.1.push(Span {
            start: at,
            end: at,
            counted,
        });
        let end = self.end(at);
        self.1[index].end = end;
        end
    }

    fn end(&mut self, at: usize) -> usize {
        let tag = self.0[at];
        match tag {
            106 => at + 1,
            97 => at + 2,
            98 => at + 5,
            70 => at + 9,
            99 => at + 32,
            119 => at + 2 + self.number(at + 1, 1),
            100 | 118 | 107 => at + 3 + self.number(at + 1, 2),
            110 => at + 3 + self.number(at + 1, 1),
            109 => at + 5 + self.number(at + 1, 4),
            77 | 111 => at + 6 + self.number(at + 1, 4),
            104 => self.counted(at + 1, 1, at + 2),
            105 => self.counted(at + 1, 4, at + 5),
            // Neither of a pair can go alone.
            116 => self.required(at + 5, self.number(at + 1, 4) * 2),
            108 => {
                let tail = self.counted(at + 1, 4, at + 5);
                self.term(tail, None)
            }
            88 | 120 => self.term(at + 1, None) + 12,
            90 => self.term(at + 3, None) + 4 + self.number(at + 1, 2) * 4,
            113 => self.required(at + 1, 3),
            112 => {
                let free = self.required(at + 30, 4);
                self.counted(at + 26, 4, free)
            }
            _ => panic!("no tag {tag} in an accepted input"),
        }
    }

    fn required(&mut self, first: usize, count: usize) -> usize {
        (0..count).fold(first, |at, _| self.term(at, None))
    }

    /// As many children as the count says.
    fn counted(&mut self, count: usize, width: usize, first: usize) -> usize {
        let number = self.number(count, width);
        (0..number).fold(first, |at, _| self.term(at, Some((count, width))))
    }

    fn number(&self, at: usize, width: usize) -> usize {
        let bytes = &self.0[at..at + width];
        bytes
            .iter()
            .fold(0, |sum, byte| sum << 8 | usize::from(*byte))
    }
}
