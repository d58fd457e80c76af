//! Prints papers with everything at its limit: `sheet-at-limits [sheet|card|event|all] [MISSING]`.
//!
//! `all` prints the three one behind the other, as the desk program takes them. MISSING fields (0 to 12, 12 unless said)
//! are `?`, each with two parts.

use std::{env, io::Write, process::ExitCode};

use second::limits::Shape;

fn main() -> ExitCode {
    let mut arguments = env::args().skip(1);
    let which = arguments.next().unwrap_or_else(|| "all".into());
    let missing = match arguments.next().map(|text| text.parse()) {
        None => 12,
        Some(Ok(missing @ 0..=12)) => missing,
        Some(_) => return usage(),
    };
    let papers = Shape { missing, ..Shape::FULL }.papers();
    let text = match which.as_str() {
        "sheet" => papers.sheet,
        "card" => papers.card,
        "event" => papers.event,
        "all" => papers.joined(),
        _ => return usage(),
    };
    match std::io::stdout().write_all(&text) {
        Ok(()) => ExitCode::SUCCESS,
        Err(_) => ExitCode::FAILURE,
    }
}

fn usage() -> ExitCode {
    eprintln!("usage: sheet-at-limits [sheet|card|event|all] [MISSING, 0 to 12]");
    ExitCode::FAILURE
}
