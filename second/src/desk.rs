//! The desk program, from its input to its output.

use crate::{
    outlook,
    refusal::{Fault, Refusal},
    step::Case,
};

pub const DESK_BYTES: usize = 34_304;

pub fn desk(input: &[u8]) -> Vec<u8> {
    printed(input, print_step)
}

/// What a program at the desk prints: the refusal of its papers, or what it makes of their case.
pub fn printed(input: &[u8], of_case: impl FnOnce(&Case) -> Vec<u8>) -> Vec<u8> {
    read(input).map_or_else(refused, |case| of_case(&case))
}

/// The line of a refusal.
pub fn refused(refusal: Refusal) -> Vec<u8> {
    let [number, paper, line] = refusal.numbers();
    format!("refused={number} {paper} {line}\n").into_bytes()
}

fn read(input: &[u8]) -> Result<Case<'_>, Refusal> {
    if input.len() > DESK_BYTES {
        return Err(Refusal::of_request(Fault::Long));
    }
    let (sheet, rest) = split(input);
    let (card, event) = split(rest);
    Case::read(sheet, card, event)
}

/// The next card, the tasks started and the outlook.
fn print_step(case: &Case) -> Vec<u8> {
    let next = case.next();
    let mut output = next.card;
    for (index, status) in case.sheet.names.statuses.iter().enumerate() {
        if next.tasks >> index & 1 == 1 {
            for part in [b"start=", status.name, b"\n"] {
                output.extend_from_slice(part);
            }
        }
    }
    match outlook::patterns(case) {
        Some(patterns) => {
            for pattern in patterns {
                output.extend_from_slice(format!("outlook={pattern}\n").as_bytes());
            }
        }
        None => output.extend_from_slice(b"outlook=refused\n"),
    }
    output
}

/// Up to and with the first line that begins `end=`, and what is left.
pub fn split(bytes: &[u8]) -> (&[u8], &[u8]) {
    let mut end = 0;
    for line in bytes.split_inclusive(|byte| *byte == b'\n') {
        end += line.len();
        if line.starts_with(b"end=") {
            break;
        }
    }
    bytes.split_at(end)
}
