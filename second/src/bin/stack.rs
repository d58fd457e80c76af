//! `stack`: how much stack the library's step, outlook and why need on the papers at the limits.
//!
//! Each request is made in a process of its own, on a thread whose stack is made smaller until it overflows; what the
//! thread needs without a request is taken off.

use std::process::{Command, ExitCode, Stdio};

use second::{limits::Shape, papers::Papers, survey::say};

const REQUESTS: [&str; 4] = ["nothing", "step", "outlook", "why"];

fn main() -> ExitCode {
    let arguments: Vec<String> = std::env::args().skip(1).collect();
    match &arguments[..] {
        [] => {
            let [nothing, needs @ ..] = REQUESTS.map(needed);
            let [step, outlook, why] = needs.map(|need| need - nothing);
            say(&format!("step {step} KB, outlook {outlook} KB, why {why} KB\n"));
            ExitCode::SUCCESS
        }
        [request, kilobytes] => {
            let (request, kilobytes) = (request.clone(), kilobytes.parse::<usize>().expect("a number"));
            let papers = Shape::FULL.papers();
            // The space is made outside the thread.
            let (card, list) = (vec![0; 1_024], vec![0; 4_096]);
            let thread = std::thread::Builder::new().stack_size(kilobytes << 10);
            let asked = thread.spawn(move || ask(&request, &papers, card, list)).expect("a thread starts");
            if asked.join().expect("the work ends") == 0 { ExitCode::SUCCESS } else { ExitCode::FAILURE }
        }
        _ => ExitCode::FAILURE,
    }
}

fn ask(request: &str, papers: &Papers, mut card: Vec<u8>, mut list: Vec<u32>) -> u8 {
    match request {
        "step" => reambodkin::step(&papers.sheet, &papers.card, &papers.event, &mut card).number,
        "outlook" => reambodkin::outlook(&papers.sheet, &papers.card, &papers.event, &mut list).number,
        "why" => reambodkin::why(&papers.sheet, &papers.card, &papers.event, &mut list).number,
        _ => 0,
    }
}

/// The smallest stack in kilobytes, in steps of 4, on which a request ends.
fn needed(request: &str) -> usize {
    let program = std::env::current_exe().expect("this program");
    let ends = |pages: usize| {
        let mut call = Command::new(&program);
        call.arg(request).arg((4 * pages).to_string()).stdout(Stdio::null()).stderr(Stdio::null());
        call.status().expect("a process starts").success()
    };
    let (mut low, mut high) = (0, 256);
    assert!(ends(high), "{request} ends on a large stack");
    while low + 1 < high {
        let middle = (low + high) / 2;
        if ends(middle) { high = middle } else { low = middle }
    }
    4 * high
}
