//! The three papers of a request, as bytes.

use std::fmt;

#[derive(Clone, Debug, PartialEq, Eq)]
pub struct Papers {
    pub sheet: Vec<u8>,
    pub card: Vec<u8>,
    pub event: Vec<u8>,
}

impl Papers {
    /// One behind the other, as the desk program takes them.
    pub fn joined(&self) -> Vec<u8> {
        [&self.sheet[..], &self.card, &self.event].concat()
    }
}

impl fmt::Display for Papers {
    fn fmt(&self, to: &mut fmt::Formatter) -> fmt::Result {
        for (name, paper) in [("sheet", &self.sheet), ("card", &self.card), ("event", &self.event)] {
            writeln!(to, "--- {name}, {} bytes", paper.len())?;
            for line in paper.split_inclusive(|byte| *byte == b'\n') {
                match line.strip_suffix(b"\n") {
                    Some(text) => writeln!(to, "{}", text.escape_ascii())?,
                    None => writeln!(to, "{} (no LF)", line.escape_ascii())?,
                }
            }
        }
        Ok(())
    }
}
