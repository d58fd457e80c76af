//! Pieces of a paper, read from left to right.

use crate::refusal::{Fault, Paper, Refusal};

pub const LEAST: i64 = -1_000_000_000;
pub const MOST: i64 = 1_000_000_000;

const RESERVED: [&[u8]; 6] = [b"on", b"if", b"or", b"and", b"not", b"end"];

/// A paper and how far it has been read.
pub struct Reader<'a> {
    bytes: &'a [u8],
    at: usize,
    line: usize,
}

/// A field's value as a paper shows it.
#[derive(Clone, Copy, Debug, PartialEq, Eq)]
pub struct Value<'a> {
    pub text: &'a [u8],
    /// None for `?`.
    pub number: Option<i64>,
}

/// Reads a paper as a whole: its length first, then its lines, and nothing may stand behind them.
pub fn read_paper<'a, T>(
    paper: Paper,
    bytes: &'a [u8],
    limit: usize,
    lines: impl FnOnce(&mut Reader<'a>) -> Result<T, Fault>,
) -> Result<T, Refusal> {
    if bytes.len() > limit {
        return Err(Refusal { fault: Fault::Long, paper, line: 0 });
    }
    let mut reader = Reader { bytes, at: 0, line: 1 };
    lines(&mut reader)
        .and_then(|read| if reader.at_end() { Ok(read) } else { Err(Fault::Line) })
        .map_err(|fault| Refusal { fault, paper, line: reader.line })
}

impl<'a> Reader<'a> {
    /// The line that is being read, from 1.
    pub fn line(&self) -> usize {
        self.line
    }

    pub fn at(&self) -> usize {
        self.at
    }

    /// What has been read from a place on.
    pub fn read_from(&self, start: usize) -> &'a [u8] {
        &self.bytes[start..self.at]
    }

    fn rest(&self) -> &'a [u8] {
        &self.bytes[self.at..]
    }

    pub fn at_end(&self) -> bool {
        self.at == self.bytes.len()
    }

    pub fn next_is(&self, byte: u8) -> bool {
        self.bytes.get(self.at) == Some(&byte)
    }

    /// Takes a fixed text if it stands here.
    pub fn take(&mut self, text: &[u8]) -> bool {
        let there = self.rest().starts_with(text);
        if there {
            self.at += text.len();
        }
        there
    }

    /// Takes a key, mark or word that is due.
    pub fn due(&mut self, text: &[u8]) -> Result<(), Fault> {
        if self.take(text) { Ok(()) } else { Err(Fault::Line) }
    }

    pub fn line_end(&mut self) -> Result<(), Fault> {
        self.due(b"\n")?;
        self.line += 1;
        Ok(())
    }

    fn run(&mut self, belongs: impl Fn(&u8) -> bool) -> &'a [u8] {
        let rest = self.rest();
        let length = rest.iter().position(|byte| !belongs(byte)).unwrap_or(rest.len());
        self.at += length;
        &rest[..length]
    }

    /// A well-formed name. Whether it is the right one is the caller's question.
    pub fn name(&mut self) -> Result<&'a [u8], Fault> {
        if self.at_end() {
            return Err(Fault::Line);
        }
        let name = self.run(|byte| byte.is_ascii_lowercase() || byte.is_ascii_digit());
        let formed = (1..=12).contains(&name.len()) && name[0].is_ascii_lowercase() && !RESERVED.contains(&name);
        if formed { Ok(name) } else { Err(Fault::Name) }
    }

    pub fn number(&mut self) -> Result<i64, Fault> {
        if self.at_end() {
            return Err(Fault::Line);
        }
        let minus = self.take(b"-");
        let digits = self.run(u8::is_ascii_digit);
        let formed = match digits {
            [] => false,
            [b'0'] => !minus,
            [first, ..] => *first != b'0' && digits.len() <= 10,
        };
        if !formed {
            return Err(Fault::Number);
        }
        let size = digits.iter().fold(0, |sum, digit| sum * 10 + i64::from(digit - b'0'));
        let number = if minus { -size } else { size };
        if (LEAST..=MOST).contains(&number) { Ok(number) } else { Err(Fault::Number) }
    }

    /// A number or `?`.
    pub fn value(&mut self) -> Result<Value<'a>, Fault> {
        let start = self.at;
        let number = if self.take(b"?") { None } else { Some(self.number()?) };
        Ok(Value { text: self.read_from(start), number })
    }

    /// The last line of a sheet or card, with the true count.
    pub fn last_line(&mut self, count: usize) -> Result<(), Fault> {
        self.due(b"end=")?;
        if self.number()? != count as i64 {
            return Err(Fault::Line);
        }
        self.line_end()
    }
}
