//! `survey [SEED] [COUNT]`: what the generator reaches, and the second implementation checked by the book. No library.

use std::process::ExitCode;

use second::{
    generate::{generate, random_of},
    refusal::{Fault, Refusal},
    statistic::{Request, Statistic},
    survey::{Answers, ENOUGH_CASES, check_by_book, from_arguments, say},
};

fn main() -> ExitCode {
    from_arguments(survey)
}

fn survey(seed: u64, count: u64) -> ExitCode {
    let mut statistic = Statistic::default();
    for index in 0..count {
        let papers = generate(seed, index);
        let answers = Answers::of(&papers);
        answers.count(&papers, &mut statistic);
        if answers.step.is_ok() {
            statistic.refused(Request::Step, Refusal::of_request(Fault::Room));
        }
        if answers.outlook.is_ok() {
            statistic.refused(Request::Outlook, Refusal::of_request(Fault::Room));
        }
        if answers.why.is_ok_and(|reasons| !reasons.is_empty()) {
            statistic.refused(Request::Why, Refusal::of_request(Fault::Room));
        }
        if let Err(difference) = check_by_book(&papers, &mut random_of(!seed, index)) {
            say(&format!("seed {seed}, case {index}: {difference}\n{papers}\n"));
            return ExitCode::FAILURE;
        }
    }
    let (table, all_met) = statistic.table();
    say(&table);
    if !all_met && count >= ENOUGH_CASES {
        say("a number of a paper, a kind of reason or a length of circle was never met\n");
        return ExitCode::FAILURE;
    }
    say(&format!("{count} cases from seed {seed}, all as in the book\n"));
    ExitCode::SUCCESS
}
