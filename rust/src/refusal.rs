//! Refusals as types: the ten numbers, the paper and the line.

use core::{error::Error, fmt};

/// Why papers are refused. The numbers are those that the library tells, 1 to 10.
#[derive(Clone, Copy, Debug, PartialEq, Eq, PartialOrd, Ord, Hash)]
pub enum Refusal {
    Long = 1,
    Line = 2,
    Name = 3,
    Number = 4,
    Cond = 5,
    Full = 6,
    Cycle = 7,
    Orphan = 8,
    Room = 9,
    Many = 10,
}

impl Refusal {
    pub const ALL: [Refusal; 10] = [
        Refusal::Long,
        Refusal::Line,
        Refusal::Name,
        Refusal::Number,
        Refusal::Cond,
        Refusal::Full,
        Refusal::Cycle,
        Refusal::Orphan,
        Refusal::Room,
        Refusal::Many,
    ];

    /// None for 0, with which papers are taken, and for what is no refusal's number.
    pub fn from_number(number: u8) -> Option<Refusal> {
        Refusal::ALL.into_iter().find(|refusal| refusal.number() == number)
    }

    pub fn number(self) -> u8 {
        self as u8
    }

    /// Its name, as documents have it.
    pub fn name(self) -> &'static str {
        match self {
            Refusal::Long => "LONG",
            Refusal::Line => "LINE",
            Refusal::Name => "NAME",
            Refusal::Number => "NUMBER",
            Refusal::Cond => "COND",
            Refusal::Full => "FULL",
            Refusal::Cycle => "CYCLE",
            Refusal::Orphan => "ORPHAN",
            Refusal::Room => "ROOM",
            Refusal::Many => "MANY",
        }
    }

    /// When it is given.
    pub fn words(self) -> &'static str {
        match self {
            Refusal::Long => "sheet over 32,768 bytes, card over 1,024, event over 512",
            Refusal::Line => {
                "key, mark, word or end of line not as due; a line missing or too many; `end` not the true count"
            }
            Refusal::Name => "malformed, reserved, already used, unknown, of the wrong kind, or not the one due",
            Refusal::Number => "malformed or out of range",
            Refusal::Cond => "in a condition: operator, parenthesis or joining word not as due; nesting 9",
            Refusal::Full => "the first line or leaf over a limit",
            Refusal::Cycle => "the sheet's rules depend on each other in a circle",
            Refusal::Orphan => "a stage is yes under a parent that is no",
            Refusal::Room => "the result is longer than the space lent",
            Refusal::Many => "the missing answers split into more than 4,096 combinations",
        }
    }
}

impl TryFrom<u8> for Refusal {
    /// The number that is no refusal's.
    type Error = u8;

    fn try_from(number: u8) -> Result<Refusal, u8> {
        Refusal::from_number(number).ok_or(number)
    }
}

impl fmt::Display for Refusal {
    fn fmt(&self, to: &mut fmt::Formatter) -> fmt::Result {
        write!(to, "{}: {}", self.name(), self.words())
    }
}

impl Error for Refusal {}

/// One of the three papers.
#[derive(Clone, Copy, Debug, PartialEq, Eq, PartialOrd, Ord, Hash)]
pub enum Paper {
    Sheet = 1,
    Card = 2,
    Event = 3,
}

impl Paper {
    /// None for 0, where no paper is at fault, and for what is no paper's number.
    pub fn from_number(number: u8) -> Option<Paper> {
        [Paper::Sheet, Paper::Card, Paper::Event].into_iter().find(|paper| paper.number() == number)
    }

    pub fn number(self) -> u8 {
        self as u8
    }
}

impl fmt::Display for Paper {
    fn fmt(&self, to: &mut fmt::Formatter) -> fmt::Result {
        to.write_str(match self {
            Paper::Sheet => "sheet",
            Paper::Card => "card",
            Paper::Event => "event",
        })
    }
}

/// A refusal with its place.
#[derive(Clone, Copy, Debug, PartialEq, Eq, PartialOrd, Ord, Hash)]
pub struct Refused {
    pub refusal: Refusal,
    /// None where the request as such is refused.
    pub paper: Option<Paper>,
    /// Counted from 1; None where no line is at fault.
    pub line: Option<usize>,
}

impl fmt::Display for Refused {
    fn fmt(&self, to: &mut fmt::Formatter) -> fmt::Result {
        match (self.paper, self.line) {
            (Some(paper), Some(line)) => write!(to, "{paper}, line {line}: {}", self.refusal),
            (Some(paper), None) => write!(to, "{paper}: {}", self.refusal),
            (None, _) => write!(to, "{}", self.refusal),
        }
    }
}

impl Error for Refused {}

#[cfg(test)]
mod tests {
    extern crate std;

    use std::{format, string::ToString, vec::Vec};

    use super::*;

    #[test]
    fn each_number_is_its_refusals() {
        for (index, refusal) in Refusal::ALL.into_iter().enumerate() {
            assert_eq!(usize::from(refusal.number()), index + 1);
            assert_eq!(Refusal::try_from(refusal.number()), Ok(refusal));
        }
        for number in [0, 11, 255] {
            assert_eq!(Refusal::try_from(number), Err(number));
        }
        let papers: Vec<Option<Paper>> = (0..5).map(Paper::from_number).collect();
        assert_eq!(papers, [None, Some(Paper::Sheet), Some(Paper::Card), Some(Paper::Event), None]);
    }

    #[test]
    fn words_are_those_of_the_table() {
        let readme = include_str!("../../README.md");
        for refusal in Refusal::ALL {
            let row = format!("| {} | {} | {} |", refusal.number(), refusal.name(), refusal.words());
            assert!(readme.lines().any(|line| line == row), "{row}");
        }
    }

    #[test]
    fn numbers_and_papers_are_those_of_the_header() {
        let header = include_str!("../../include/reambodkin.h");
        for refusal in Refusal::ALL {
            let entry = format!("    REAMBODKIN_{} = {}", refusal.name(), refusal.number());
            let is_entry =
                |line: &str| line.strip_prefix(&entry).is_some_and(|rest| !rest.starts_with(char::is_numeric));
            assert!(header.lines().any(is_entry), "{entry}");
        }
        for paper in [Paper::Sheet, Paper::Card, Paper::Event] {
            let entry = format!("    REAMBODKIN_PAPER_{} = {}", paper.to_string().to_uppercase(), paper.number());
            assert!(header.lines().any(|line| line.trim_end_matches(',') == entry), "{entry}");
        }
    }

    #[test]
    fn a_refusal_says_where() {
        let told = |refusal, paper, line| Refused { refusal, paper, line }.to_string();
        assert_eq!(
            told(Refusal::Number, Some(Paper::Event), Some(1)),
            "event, line 1: NUMBER: malformed or out of range"
        );
        assert_eq!(
            told(Refusal::Cycle, Some(Paper::Sheet), None),
            "sheet: CYCLE: the sheet's rules depend on each other in a circle"
        );
        assert_eq!(told(Refusal::Room, None, None), "ROOM: the result is longer than the space lent");
    }
}
