//! The programs that stand in for the desk's and the clerk's, started as they are.

use std::{
    fs::File,
    io::{Seek, Write},
    process::{Command, Stdio},
};

use second::examples::{
    DeskExample, blank_examples, card_examples, check_examples, clerk_examples, desk_examples, named_examples,
};

const DESK: &str = env!("CARGO_BIN_EXE_desk");
const CLERK: &str = env!("CARGO_BIN_EXE_clerk");

/// The words that the clerk's program knows.
const WORDS: &str = "\
clerk why: for each status why it changed, or what stopped each rule
clerk card: the next card alone
clerk outlook: what may still come, in names
clerk check: whether a sheet is taken, or where its circle is
clerk blank: a sheet's card with nothing known yet
";

fn printed(program: &str, words: &[&str], input: &[u8]) -> String {
    let mut command = Command::new(program);
    let piped = command.args(words).stdin(Stdio::piped()).stdout(Stdio::piped());
    let mut child = piped.spawn().expect("the program starts");
    child.stdin.take().expect("its input").write_all(input).expect("it reads all");
    let output = child.wait_with_output().expect("it ends");
    assert!(output.status.success());
    String::from_utf8(output.stdout).expect("printed text")
}

fn prints(program: &str, words: &[&str], examples: Vec<DeskExample>) {
    for example in examples {
        assert_eq!(printed(program, words, &example.input), example.output, "{words:?} {}", example.name);
    }
}

#[test]
fn programs_print_the_examples() {
    prints(DESK, &[], desk_examples());
    prints(CLERK, &["why"], clerk_examples());
    prints(CLERK, &["card"], card_examples());
    prints(CLERK, &["outlook"], named_examples());
    prints(CLERK, &["check"], check_examples());
    prints(CLERK, &["blank"], blank_examples());
}

#[test]
fn clerk_says_its_words_and_reads_nothing() {
    for words in [&[][..], &["whether"], &["wh"], &["", "why"], &["Why"]] {
        let mut input = File::open(concat!(env!("CARGO_MANIFEST_DIR"), "/Cargo.toml")).expect("some file");
        let mut command = Command::new(CLERK);
        // The program has the same file, not one of its own: what it read would show.
        let output = command.args(words).stdin(input.try_clone().expect("once more")).output().expect("it ends");
        assert_eq!(String::from_utf8_lossy(&output.stdout), WORDS, "{words:?}");
        assert_eq!(input.stream_position().expect("a place"), 0, "{words:?}");
    }
}
