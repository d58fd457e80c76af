//! What the desk's and the clerk's programs print.

use std::{cell::RefCell, sync::LazyLock};

use reambodkin as library;
use second::{examples, papers::Papers, statistic::Request, survey::Answers};

use crate::{Comparison, GUARD, byte_pattern};

/// What a program prints, as the library has it, and the least space for it.
struct Printer {
    request: Request,
    print: fn(&[u8], &mut [u8]) -> usize,
    least: usize,
}

impl Printer {
    /// The programs in the order of `Request::PRINTED`.
    const ALL: [Printer; Request::PRINTED.len()] = [
        Printer { request: Request::Desk, print: library::desk, least: library::DESK_OUT },
        Printer { request: Request::ClerkWhy, print: library::clerk_why, least: library::CLERK_OUT },
        Printer { request: Request::ClerkCard, print: library::clerk_card, least: library::CARD_OUT },
        Printer { request: Request::ClerkOutlook, print: library::clerk_outlook, least: library::NAMED_OUT },
        Printer { request: Request::ClerkCheck, print: library::clerk_check, least: library::CHECK_OUT },
        Printer { request: Request::ClerkBlank, print: library::clerk_blank, least: library::CARD_OUT },
    ];

    /// Space of this size comes over the bridge in many pieces, both ways: on another processor than x86-64 the named
    /// outlook takes its turn on every 16th case.
    fn is_due(&self, case: u64) -> bool {
        cfg!(target_arch = "x86_64") || self.request != Request::ClerkOutlook || case.is_multiple_of(16)
    }
}

impl Comparison {
    /// What the programs print for the papers of a case; for a sheet alone, now and then with what is behind it.
    pub fn programs(&mut self, papers: &Papers, answers: &Answers, case: u64) -> Result<(), String> {
        for (program, output) in Printer::ALL.iter().zip(&answers.printed) {
            if program.is_due(case) {
                self.printed(program, &program.request.input(papers), output)?;
            }
            if case.is_multiple_of(8) && program.request.is_of_sheet() {
                let all = papers.joined();
                self.printed(program, &all, &program.request.print(&all))?;
            }
        }
        Ok(())
    }

    pub fn examples_of_programs(&mut self) -> Result<(), String> {
        let examples = [
            examples::desk_examples(),
            examples::clerk_examples(),
            examples::card_examples(),
            examples::named_examples(),
            examples::check_examples(),
            examples::blank_examples(),
        ];
        for (program, examples) in Printer::ALL.iter().zip(examples) {
            for example in examples {
                self.printed(program, &example.input, example.output.as_bytes()).map_err(|difference| {
                    format!("example {}: {difference}\n{}", example.name, example.input.escape_ascii())
                })?;
            }
        }
        Ok(())
    }

    /// What a program prints, in the least space for it and in more; now and then in too little, which must stay as it
    /// is. A guard is behind the space lent.
    fn printed(&mut self, program: &Printer, input: &[u8], expected: &[u8]) -> Result<(), String> {
        let name = program.request.name();
        self.calls += 1;
        let lent = program.least + (self.calls % 3) as usize * 1_000;
        let before: &[u8] = &BEFORE[..lent + GUARD];
        SPACE.with_borrow_mut(|all| {
            let space = &mut all[..lent + GUARD];
            if self.calls.is_multiple_of(8) {
                let length = (program.print)(input, &mut space[..program.least - 1]);
                if length != 0 || space != before {
                    return Err(format!("{name} in too little space: {length} bytes told, or the space is touched"));
                }
            }
            let length = (program.print)(input, &mut space[..lent]);
            if length > lent || space[..length] != *expected {
                let there = &space[..length.min(lent)];
                return Err(format!(
                    "{name}, {length} bytes, second, {} bytes; {}",
                    expected.len(),
                    lines(there, expected)
                ));
            }
            if space[length..] != before[length..] {
                return Err(format!("{name}: the space behind its output is touched"));
            }
            space[..length].copy_from_slice(&before[..length]);
            Ok(())
        })
    }
}

/// More than the longest space lent and its guard.
const MOST_SPACE: usize = library::NAMED_OUT + (8 << 10);

static BEFORE: LazyLock<Vec<u8>> = LazyLock::new(|| (0..MOST_SPACE).map(byte_pattern).collect());

thread_local! {
    /// As `BEFORE` between the calls: filling so much anew for each would take longer than the call.
    static SPACE: RefCell<Vec<u8>> = RefCell::new(BEFORE.clone());
}

/// Two outputs from the first line on in which they differ.
fn lines(library: &[u8], second: &[u8]) -> String {
    let same = library.iter().zip(second).take_while(|(library, second)| library == second).count();
    let start = library[..same].iter().rposition(|byte| *byte == b'\n').map_or(0, |place| place + 1);
    let shown =
        |output: &[u8]| output[start..].iter().take(2_000).copied().collect::<Vec<u8>>().escape_ascii().to_string();
    format!("from byte {start} on:\n{}\nsecond:\n{}", shown(library), shown(second))
}
