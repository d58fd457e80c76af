//! `bench`: reading with a step, with an outlook and with the reasons, library and second implementation in one run.
//!
//! Times are the best of several runs, taken in turn; the ratio is the library's time over the second's. A table of its
//! own has the library's `why` over its step.

use std::{
    hint::black_box,
    time::{Duration, Instant},
};

use second::{
    examples::{CARD_Q, SHEET_P},
    limits::{Listing, Shape},
    papers::Papers,
    survey::{on_large_stack, say},
};

const RUNS: usize = 31;
/// The most reasons.
const WHY_OUT: usize = 159;
/// How long one run of one side takes, about.
const RUN: Duration = Duration::from_millis(4);

fn main() {
    on_large_stack(bench);
}

fn bench() {
    sheets();
    growth();
}

/// Sheets from small to full.
fn sheets() {
    let small = Papers { sheet: SHEET_P.into(), card: CARD_Q.into(), event: b"looked income=?\n".to_vec() };
    heading("sheets");
    step("P", &small);
    outlook("P", &small);
    why("P", &small);
    let middle = Shape::MIDDLE.papers();
    step("middle", &middle);
    outlook("middle, 32 combinations", &middle);
    why("middle", &middle);
    let full = Shape::FULL.papers();
    step("at the limits", &full);
    outlook("at the limits, 1 combination", &Shape { missing: 0, ..Shape::FULL }.papers());
    outlook("at the limits, 4,096", &full);
    why("at the limits", &full);

    titled("why over the step, both the library's", ["why us", "step us"]);
    for (name, papers) in [("P", &small), ("middle", &middle), ("at the limits", &full)] {
        why_over_step(name, papers);
    }
}

/// How the cost grows.
fn growth() {
    heading("order in which 4,096 patterns come up, few rules");
    for listing in Listing::ALL {
        let few = Shape { rules: 24, statuses: 24, leaves: 24, listing, bytes: None, ..Shape::FULL };
        outlook(&format!("{listing:?}"), &few.papers());
    }

    heading("by rules, 4 leaves each");
    for rules in [8, 16, 32, 64, 128] {
        let statuses = rules.min(32);
        let missing = (statuses / 2).min(4);
        let papers = Shape { rules, statuses, missing, leaves: 4 * rules, bytes: None, ..Shape::FULL }.papers();
        step(&format!("{rules} rules"), &papers);
        outlook(&format!("{rules} rules, {} combinations", 1 << missing), &papers);
    }

    heading("by leaves, 32 rules");
    for leaves in [32, 64, 128, 256, 512] {
        let papers = Shape { rules: 32, leaves, missing: 4, bytes: None, ..Shape::FULL }.papers();
        step(&format!("{leaves} leaves"), &papers);
        outlook(&format!("{leaves} leaves, 16 combinations"), &papers);
    }

    heading("by combinations, at the limits");
    for missing in [0, 2, 4, 6, 8, 10, 12] {
        let papers = Shape { missing, ..Shape::FULL }.papers();
        outlook(&format!("{} combinations", 1 << missing), &papers);
    }
}

fn heading(text: &str) {
    titled(text, ["library us", "second us"]);
}

fn titled(text: &str, [first, second]: [&str; 2]) {
    say(&format!("\n{text}\n{:<44} {first:>12} {second:>12} {:>7}\n", "", "ratio"));
}

fn step(name: &str, papers: &Papers) {
    let mut space = vec![0; 1_024];
    assert_eq!(reambodkin::step(&papers.sheet, &papers.card, &papers.event, &mut space).number, 0, "{name} is taken");
    let library = || {
        black_box(reambodkin::step(black_box(&papers.sheet), &papers.card, &papers.event, &mut space));
    };
    let second = || {
        black_box(second::step(black_box(&papers.sheet), &papers.card, &papers.event, 1_024)).ok();
    };
    compare("step", name, library, second);
}

fn outlook(name: &str, papers: &Papers) {
    let mut space = vec![0; 4_096];
    assert_eq!(
        reambodkin::outlook(&papers.sheet, &papers.card, &papers.event, &mut space).number,
        0,
        "{name} is taken"
    );
    let library = || {
        black_box(reambodkin::outlook(black_box(&papers.sheet), &papers.card, &papers.event, &mut space));
    };
    let second = || {
        black_box(second::outlook(black_box(&papers.sheet), &papers.card, &papers.event, 4_096)).ok();
    };
    compare("outlook", name, library, second);
}

fn why(name: &str, papers: &Papers) {
    let mut space = reasons_space(name, papers);
    let library = || {
        black_box(reambodkin::why(black_box(&papers.sheet), &papers.card, &papers.event, &mut space));
    };
    let second = || {
        black_box(second::why(black_box(&papers.sheet), &papers.card, &papers.event, WHY_OUT)).ok();
    };
    compare("why", name, library, second);
}

fn why_over_step(name: &str, papers: &Papers) {
    let mut reasons = reasons_space(name, papers);
    let mut card = vec![0; 1_024];
    let why = || {
        black_box(reambodkin::why(black_box(&papers.sheet), &papers.card, &papers.event, &mut reasons));
    };
    let step = || {
        black_box(reambodkin::step(black_box(&papers.sheet), &papers.card, &papers.event, &mut card));
    };
    compare("why", name, why, step);
}

/// Space for all reasons of papers that are taken.
fn reasons_space(name: &str, papers: &Papers) -> Vec<u32> {
    let mut space = vec![0; WHY_OUT];
    assert_eq!(reambodkin::why(&papers.sheet, &papers.card, &papers.event, &mut space).number, 0, "{name} is taken");
    space
}

fn compare(request: &str, name: &str, mut first: impl FnMut(), mut second: impl FnMut()) {
    let first_times = calls_in_a_run(&mut first);
    let second_times = calls_in_a_run(&mut second);
    let (mut best_first, mut best_second) = (f64::INFINITY, f64::INFINITY);
    for _ in 0..RUNS {
        best_first = best_first.min(run(&mut first, first_times));
        best_second = best_second.min(run(&mut second, second_times));
    }
    let ratio = best_first / best_second;
    say(&format!("{request:<9} {name:<34} {best_first:>12.2} {best_second:>12.2} {ratio:>7.2}\n"));
}

fn calls_in_a_run(call: &mut impl FnMut()) -> u32 {
    call();
    let start = Instant::now();
    call();
    let once = start.elapsed().max(Duration::from_nanos(50));
    (RUN.as_nanos() / once.as_nanos()).clamp(1, 200_000) as u32
}

/// Microseconds for one call.
fn run(call: &mut impl FnMut(), times: u32) -> f64 {
    let start = Instant::now();
    for _ in 0..times {
        call();
    }
    start.elapsed().as_secs_f64() * 1e6 / f64::from(times)
}
