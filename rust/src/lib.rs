//! Reambodkin's three requests over the bytes of three papers, as safe functions on slices. `include/reambodkin.h` has
//! the contract in words.
//!
//! `step`, `outlook` and `why` return the reply as it is told; `try_step`, `try_outlook` and `try_why` return the answer
//! or the refusal. Without the feature `archive` there are the types and the sizes alone.

#![no_std]

#[cfg(feature = "archive")]
mod doors;
mod refusal;
mod sizes;

#[cfg(feature = "archive")]
pub use doors::*;
pub use refusal::{Paper, Refusal, Refused};
pub use sizes::*;

/// The example of the README is run as a test.
#[cfg(all(doctest, feature = "archive"))]
#[doc = include_str!("../README.md")]
struct Readme;

/// What a request returns: `number` is 0 when the papers are taken, otherwise the refusal's, with its paper and line.
#[derive(Clone, Copy, Debug, PartialEq, Eq)]
pub struct Reply {
    pub number: u8,
    pub paper: u8,
    pub line: usize,
    /// How many entries of the lent space were written.
    pub count: usize,
    /// The tasks started, as a pattern; of the step alone.
    pub tasks: u32,
}

/// What a step that is taken gives.
#[derive(Clone, Copy, Debug, PartialEq, Eq)]
pub struct Stepped<'out> {
    /// The next card, at the start of the lent space.
    pub card: &'out [u8],
    /// The tasks started, as a pattern.
    pub tasks: u32,
}

impl Reply {
    /// The refusal, if the papers are not taken.
    ///
    /// # Panics
    ///
    /// Where the number is not one of 0 to 10; the library tells no other.
    pub fn refused(self) -> Option<Refused> {
        (self.number != 0).then(|| Refused {
            refusal: Refusal::from_number(self.number).expect("a refusal's number"),
            paper: Paper::from_number(self.paper),
            line: (self.line != 0).then_some(self.line),
        })
    }

    /// How many entries were written, or the refusal.
    #[cfg(any(test, feature = "archive"))]
    fn written(self) -> Result<usize, Refused> {
        self.refused().map_or(Ok(self.count), Err)
    }

    #[cfg(any(test, feature = "archive"))]
    fn of([number, paper, line, count, tasks]: [u64; REPLY]) -> Reply {
        Reply {
            number: number as u8,
            paper: paper as u8,
            line: line as usize,
            count: count as usize,
            tasks: tasks as u32,
        }
    }
}

#[cfg(test)]
mod tests {
    use super::*;

    #[test]
    fn a_reply_is_an_answer_or_a_refusal() {
        let taken = Reply::of([0, 0, 0, 70, 2]);
        assert_eq!(taken, Reply { number: 0, paper: 0, line: 0, count: 70, tasks: 2 });
        assert_eq!((taken.refused(), taken.written()), (None, Ok(70)));
        let refused = Refused { refusal: Refusal::Line, paper: Some(Paper::Card), line: Some(8) };
        assert_eq!(Reply::of([2, 2, 8, 0, 0]).written(), Err(refused));
        let cyclic = Refused { refusal: Refusal::Cycle, paper: Some(Paper::Sheet), line: None };
        assert_eq!(Reply::of([7, 1, 0, 0, 0]).refused(), Some(cyclic));
        let many = Refused { refusal: Refusal::Many, paper: None, line: None };
        assert_eq!(Reply::of([10, 0, 0, 0, 0]).refused(), Some(many));
    }
}
