//! One case looked at from all sides by the second implementation: its answers counted, small ones checked by the book.

use std::{
    io::{Read, Write},
    process::ExitCode,
};

use crate::{
    Next, book,
    circle::circle,
    generate::Random,
    papers::Papers,
    refusal::{Fault, Paper, Refusal},
    sheet::Sheet,
    statistic::{Request, Statistic},
    step::Case,
};

/// What the second implementation answers with room for everything.
pub struct Answers {
    pub step: Result<Next, Refusal>,
    pub outlook: Result<Vec<u32>, Refusal>,
    pub why: Result<Vec<u32>, Refusal>,
    /// What each program prints, in the order of `Request::PRINTED`.
    pub printed: [Vec<u8>; Request::PRINTED.len()],
}

impl Answers {
    pub fn of(papers: &Papers) -> Answers {
        let (sheet, card, event) = (&papers.sheet, &papers.card, &papers.event);
        Answers {
            step: crate::step(sheet, card, event, usize::MAX),
            outlook: crate::outlook(sheet, card, event, usize::MAX),
            why: crate::why(sheet, card, event, usize::MAX),
            printed: Request::PRINTED.map(|request| request.print(&request.input(papers))),
        }
    }

    pub fn count(&self, papers: &Papers, statistic: &mut Statistic) {
        match &self.step {
            Ok(next) => {
                let yes = |card: &[u8]| card.split(|byte| *byte == b'\n').map(|line| line.ends_with(b"=yes")).collect();
                let (before, after): (Vec<bool>, Vec<bool>) = (yes(&papers.card), yes(&next.card));
                statistic.taken(Request::Step);
                statistic.stepped(before != after, next.tasks);
            }
            Err(refusal) => statistic.refused(Request::Step, *refusal),
        }
        match &self.outlook {
            Ok(patterns) => {
                statistic.taken(Request::Outlook);
                statistic.listed(patterns.len());
            }
            Err(refusal) => statistic.refused(Request::Outlook, *refusal),
        }
        match &self.why {
            Ok(reasons) => {
                statistic.taken(Request::Why);
                statistic.told(reasons);
            }
            Err(refusal) => statistic.refused(Request::Why, *refusal),
        }
        for (request, output) in Request::PRINTED.into_iter().zip(&self.printed) {
            match printed_refusal(request, output) {
                None => statistic.taken(request),
                Some(refusal) => statistic.refused(request, refusal),
            }
        }
        if let Ok(sheet) = Sheet::read(&papers.sheet)
            && let Some(edges) = circle(&sheet)
        {
            statistic.circle(&sheet, &edges);
        }
    }
}

/// The refusal that a program printed, if it printed one.
fn printed_refusal(request: Request, output: &[u8]) -> Option<Refusal> {
    let many = match request {
        Request::Desk => output.ends_with(b"\noutlook=refused\n"),
        // A status may have the name `refused`; above its patterns stand the statuses.
        _ => output == b"outlook=refused\n",
    };
    if many {
        return Some(Refusal::of_request(Fault::Many));
    }
    let first = output.split(|byte| *byte == b'\n').next()?;
    let text = std::str::from_utf8(first.strip_prefix(b"refused=")?).ok()?;
    let numbers: Vec<usize> = text.split_whitespace().filter_map(|word| word.parse().ok()).collect();
    let [number, paper, line] = numbers[..] else { return None };
    const FAULTS: [Fault; 10] = [
        Fault::Long,
        Fault::Line,
        Fault::Name,
        Fault::Number,
        Fault::Cond,
        Fault::Full,
        Fault::Cycle,
        Fault::Orphan,
        Fault::Room,
        Fault::Many,
    ];
    const PAPERS: [Paper; 4] = [Paper::None, Paper::Sheet, Paper::Card, Paper::Event];
    Some(Refusal { fault: *FAULTS.get(number.checked_sub(1)?)?, paper: *PAPERS.get(paper)?, line })
}

/// Checks the second implementation by the book, where the sheet is small enough.
pub fn check_by_book(papers: &Papers, random: &mut Random) -> Result<(), String> {
    if let Ok(sheet) = Sheet::read(&papers.sheet) {
        book::check_graph(&sheet)?;
        book::check_sheet(&papers.sheet, &sheet)?;
    }
    if let Ok(case) = Case::read(&papers.sheet, &papers.card, &papers.event) {
        book::check_case(&case, random)?;
        book::check_why(&case)?;
        // Papers that are taken are parted by the programs as they are here.
        book::check_card(&papers.joined())?;
        book::check_named(&papers.joined(), &case)?;
    }
    Ok(())
}

/// Prints a text; a reader that has gone away is no fault.
pub fn say(text: &str) {
    print(text.as_bytes());
}

fn print(bytes: &[u8]) {
    let mut output = std::io::stdout().lock();
    let _ = output.write_all(bytes).and_then(|()| output.flush());
}

/// A program over the whole of its input.
pub fn answer_input(mut input: impl Read, answer: fn(&[u8]) -> Vec<u8>) -> ExitCode {
    let mut bytes = Vec::new();
    match input.read_to_end(&mut bytes) {
        Ok(_) => {
            print(&answer(&bytes));
            ExitCode::SUCCESS
        }
        Err(fault) => {
            eprintln!("standard input: {fault}");
            ExitCode::FAILURE
        }
    }
}

/// Runs on a thread with a large stack.
pub fn on_large_stack<T: Send + 'static>(work: impl FnOnce() -> T + Send + 'static) -> T {
    let thread = std::thread::Builder::new().stack_size(256 << 20).spawn(work).expect("a thread starts");
    thread.join().expect("the work ends")
}

/// A program over SEED and COUNT from the command line, on a large stack.
pub fn from_arguments(work: fn(u64, u64) -> ExitCode) -> ExitCode {
    match seed_and_count() {
        Ok((seed, count)) => on_large_stack(move || work(seed, count)),
        Err(usage) => {
            eprintln!("{usage}");
            ExitCode::FAILURE
        }
    }
}

fn seed_and_count() -> Result<(u64, u64), String> {
    let numbers: Result<Vec<u64>, _> = std::env::args().skip(1).map(|argument| argument.parse()).collect();
    match numbers.as_deref() {
        Ok([]) => Ok((1, 100_000)),
        Ok([seed]) => Ok((*seed, 100_000)),
        Ok([seed, count]) => Ok((*seed, *count)),
        _ => Err("the arguments are [SEED] [COUNT], whole numbers".into()),
    }
}

/// From so many cases on, each number of each paper and each kind of reason must be met.
pub const ENOUGH_CASES: u64 = 20_000;
