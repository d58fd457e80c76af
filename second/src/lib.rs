//! A second implementation of the rules, written from their documents alone and by other ways where there are some.
//!
//! `step`, `outlook`, `why`, `desk` and the functions of the clerk's words answer as the document and its requests say.
//! `book` checks them the slow way, `generate` makes papers from a seed, and `examples` holds the document's own.

#![forbid(unsafe_code)]

pub mod book;
pub mod card;
pub mod circle;
pub mod clerk;
pub mod condition;
pub mod desk;
pub mod examples;
pub mod generate;
pub mod graph;
pub mod limits;
pub mod outlook;
pub mod papers;
pub mod piece;
pub mod refusal;
pub mod sheet;
pub mod statistic;
pub mod step;
pub mod survey;
pub mod why;

pub use clerk::{clerk_blank, clerk_card, clerk_check, clerk_outlook, clerk_why};
pub use desk::desk;
pub use refusal::{Fault, Paper, Refusal};
pub use step::Next;

use step::Case;

/// The next card and the tasks started; `room` is the space lent in bytes.
pub fn step(sheet: &[u8], card: &[u8], event: &[u8], room: usize) -> Result<Next, Refusal> {
    let next = Case::read(sheet, card, event)?.next();
    if next.card.len() > room { Err(Refusal::of_request(Fault::Room)) } else { Ok(next) }
}

/// The patterns that may come, ascending; `room` is the space lent in entries.
pub fn outlook(sheet: &[u8], card: &[u8], event: &[u8], room: usize) -> Result<Vec<u32>, Refusal> {
    let case = Case::read(sheet, card, event)?;
    let patterns = outlook::patterns(&case).ok_or(Refusal::of_request(Fault::Many))?;
    if patterns.len() > room { Err(Refusal::of_request(Fault::Room)) } else { Ok(patterns) }
}

/// The reasons as numbers, ascending; `room` is the space lent in entries.
pub fn why(sheet: &[u8], card: &[u8], event: &[u8], room: usize) -> Result<Vec<u32>, Refusal> {
    let reasons = why::reasons(&Case::read(sheet, card, event)?);
    if reasons.len() > room {
        return Err(Refusal::of_request(Fault::Room));
    }
    Ok(reasons.into_iter().map(why::Reason::number).collect())
}
