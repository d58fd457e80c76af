//! `desk`: stands in for the desk program, which is proved and built from the library: reads standard input, prints what
//! the second implementation makes of it.

use std::{io, process::ExitCode};

use second::survey::answer_input;

fn main() -> ExitCode {
    answer_input(io::stdin().lock(), second::desk)
}
