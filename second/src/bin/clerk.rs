//! `clerk WORD`: stands in for the clerk's program, which is proved and built from the library: reads standard input,
//! prints what the second implementation makes of it. With another word, or none, it says which words there are and
//! reads nothing.

use std::{env, io, process::ExitCode};

use second::survey::{answer_input, say};

const WORDS: &str = "\
clerk why: for each status why it changed, or what stopped each rule
clerk card: the next card alone
clerk outlook: what may still come, in names
clerk check: whether a sheet is taken, or where its circle is
clerk blank: a sheet's card with nothing known yet
";

fn main() -> ExitCode {
    let word = env::args_os().nth(1);
    let answer = match word.as_deref().and_then(|word| word.to_str()) {
        Some("why") => second::clerk_why,
        Some("card") => second::clerk_card,
        Some("outlook") => second::clerk_outlook,
        Some("check") => second::clerk_check,
        Some("blank") => second::clerk_blank,
        _ => {
            say(WORDS);
            return ExitCode::SUCCESS;
        }
    };
    answer_input(io::stdin().lock(), answer)
}
