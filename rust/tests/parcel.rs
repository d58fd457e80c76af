//! The examples of the repository, through the safe functions.

use reambodkin::{
    OUTLOOK_OUT, Paper, Refusal, Refused, Reply, STEP_OUT, WHY_OUT, outlook, outlook_into, step, step_into,
    try_outlook, try_step, try_why, why, why_into,
};

const SHEET: &[u8] = include_bytes!("../../examples/parcel.sheet");
const CARD: &[u8] = include_bytes!("../../examples/parcel.card");
const MISSING: &[u8] = include_bytes!("../../examples/looked-missing.event");
const FITTING: &[u8] = include_bytes!("../../examples/looked-900.event");

#[test]
fn fitting_income_opens_the_packing() {
    let mut out = [0; 1_024];
    let reply = step(SHEET, CARD, FITTING, &mut out);
    let card = b"case=parcel\nincome=900\npeople=3\nreview=yes\npack=yes\nfit=yes\nunfit=no\nend=6\n";
    assert_eq!(reply, Reply { number: 0, paper: 0, line: 0, count: card.len(), tasks: 2 });
    assert_eq!(&out[..reply.count], card);
}

#[test]
fn missing_income_leaves_two_patterns() {
    let mut out = [0; 4_096];
    let reply = outlook(SHEET, CARD, MISSING, &mut out);
    assert_eq!(reply, Reply { number: 0, paper: 0, line: 0, count: 2, tasks: 0 });
    assert_eq!(out[..reply.count], [7, 9]);
}

#[test]
fn fitting_income_is_told_as_the_reason() {
    let mut out = [0; 159];
    let reply = why(SHEET, CARD, FITTING, &mut out);
    assert_eq!(reply, Reply { number: 0, paper: 0, line: 0, count: 4, tasks: 0 });
    // Line 12 not triggered; lines 15 and 13 held; the condition of line 14 false.
    assert_eq!(out[..reply.count], [123, 10_151, 20_131, 30_145]);
}

#[test]
fn reasons_need_room() {
    let mut out = [7; 3];
    let reply = why(SHEET, CARD, FITTING, &mut out);
    assert_eq!(reply, Reply { number: 9, paper: 0, line: 0, count: 0, tasks: 0 });
    assert_eq!(out, [7; 3]);
}

#[test]
fn a_refusal_names_paper_and_line() {
    let mut out = [7; 1_024];
    let reply = step(SHEET, CARD, b"looked", &mut out);
    assert_eq!((reply.number, reply.paper, reply.line), (2, 3, 1));
    assert_eq!(out, [7; 1_024]);
}

#[test]
fn step_names_the_five_numbers() {
    let mut out = [0; 1_024];
    let mut numbers = [7; 6];
    assert_eq!(step_into(SHEET, CARD, FITTING, &mut out, &mut numbers), 0);
    let written = out.iter().position(|&byte| byte == 0).expect("shorter than the space");
    // How much was written, then the tasks: `pack`, the second stage.
    assert_eq!(numbers, [0, 0, 0, written as u64, 0b10, 7]);
    let reply = step(SHEET, CARD, FITTING, &mut out);
    assert_eq!((reply.count, reply.tasks), (written, 0b10));
}

#[test]
fn outlook_names_the_five_numbers() {
    let mut out = [u32::MAX; 4_096];
    let mut numbers = [7; 6];
    assert_eq!(outlook_into(SHEET, CARD, MISSING, &mut out, &mut numbers), 0);
    let written = out.iter().position(|&pattern| pattern == u32::MAX).expect("shorter than the space");
    // An outlook starts no task.
    assert_eq!(numbers, [0, 0, 0, written as u64, 0, 7]);
    let reply = outlook(SHEET, CARD, MISSING, &mut out);
    assert_eq!((reply.count, reply.tasks), (written, 0));
}

#[test]
fn why_names_the_five_numbers() {
    let mut out = [u32::MAX; 159];
    let mut numbers = [7; 6];
    assert_eq!(why_into(SHEET, CARD, MISSING, &mut out, &mut numbers), 0);
    let written = out.iter().position(|&reason| reason == u32::MAX).expect("shorter than the space");
    // A reason starts no task.
    assert_eq!(numbers, [0, 0, 0, written as u64, 0, 7]);
    let reply = why(SHEET, CARD, MISSING, &mut out);
    assert_eq!((reply.count, reply.tasks), (written, 0));
}

#[test]
fn answers_are_results() {
    let mut space = [0; STEP_OUT];
    let stepped = try_step(SHEET, CARD, FITTING, &mut space).expect("taken");
    let card = b"case=parcel\nincome=900\npeople=3\nreview=yes\npack=yes\nfit=yes\nunfit=no\nend=6\n";
    assert_eq!((stepped.card, stepped.tasks), (&card[..], 0b10));
    assert_eq!(try_outlook(SHEET, CARD, MISSING, &mut [0; OUTLOOK_OUT]), Ok(&[7, 9][..]));
    assert_eq!(try_why(SHEET, CARD, FITTING, &mut [0; WHY_OUT]), Ok(&[123, 10_151, 20_131, 30_145][..]));
}

#[test]
fn refusals_are_results() {
    let due = Refused { refusal: Refusal::Line, paper: Some(Paper::Event), line: Some(1) };
    assert_eq!(try_step(SHEET, CARD, b"looked", &mut [0; STEP_OUT]), Err(due));
    assert_eq!(try_outlook(SHEET, CARD, b"looked", &mut [0; OUTLOOK_OUT]), Err(due));
    assert_eq!(try_why(SHEET, CARD, b"looked", &mut [0; WHY_OUT]), Err(due));
    let room = Refused { refusal: Refusal::Room, paper: None, line: None };
    assert_eq!(try_step(SHEET, CARD, FITTING, &mut [0; 10]), Err(room));
    assert_eq!(try_outlook(SHEET, CARD, MISSING, &mut [0; 1]), Err(room));
    assert_eq!(try_why(SHEET, CARD, FITTING, &mut [0; 3]), Err(room));
    let long = Refused { refusal: Refusal::Long, paper: Some(Paper::Card), line: None };
    assert_eq!(try_step(SHEET, &[b'x'; 1_025], FITTING, &mut [0; STEP_OUT]), Err(long));
}

/// What a program prints stands at the start of the space, which is else as it was; with a byte less all of it is.
#[cfg(feature = "desk")]
fn prints(program: fn(&[u8], &mut [u8]) -> usize, least: usize, input: &[u8], printed: &str) {
    let mut out = vec![7; least];
    let length = program(input, &mut out);
    assert_eq!(out[..length].escape_ascii().to_string(), printed.as_bytes().escape_ascii().to_string());
    assert!(out[length..].iter().all(|&byte| byte == 7));
    let mut short = vec![7; least - 1];
    assert_eq!(program(input, &mut short), 0);
    assert!(short.iter().all(|&byte| byte == 7));
}

#[cfg(feature = "desk")]
#[test]
fn clerk_prints_the_reasons() {
    let printed = "\
why=-review line 12 trigger not met: on withdrawn
why=+pack line 15 held: if fit and review
why=+fit line 13 held: on looked if income<=900
why=+unfit line 14 condition false: on looked if income>900
";
    prints(reambodkin::clerk_why, reambodkin::CLERK_OUT, &[SHEET, CARD, FITTING].concat(), printed);
}

#[cfg(feature = "desk")]
#[test]
fn desk_and_clerk_print_the_next_card() {
    let input = [SHEET, CARD, FITTING].concat();
    let card = "case=parcel\nincome=900\npeople=3\nreview=yes\npack=yes\nfit=yes\nunfit=no\nend=6\n";
    prints(reambodkin::desk, reambodkin::DESK_OUT, &input, &format!("{card}start=pack\noutlook=7\n"));
    prints(reambodkin::clerk_card, reambodkin::CARD_OUT, &input, card);
}

#[cfg(feature = "desk")]
#[test]
fn clerk_prints_the_outlook_in_names() {
    let printed = "\
review=always
pack=open
fit=open
unfit=open
outlook=review pack fit
outlook=review unfit
";
    prints(reambodkin::clerk_outlook, reambodkin::NAMED_OUT, &[SHEET, CARD, MISSING].concat(), printed);
}

#[cfg(feature = "desk")]
#[test]
fn clerk_checks_a_sheet_and_blanks_its_card() {
    let counts = "model=parcel\nfields=2\nevents=3\nstages=2\nmiles=2\nrules=5\nleaves=5\n";
    let blank = "case=parcel\nincome=?\npeople=?\nreview=no\npack=no\nfit=no\nunfit=no\nend=6\n";
    prints(reambodkin::clerk_check, reambodkin::CHECK_OUT, SHEET, counts);
    prints(reambodkin::clerk_blank, reambodkin::CARD_OUT, SHEET, blank);
    let circle = b"model=m\nevent=e\nstage=p\nstage=c p\nrule=+c on e\nrule=-p on +c\nend=2\n";
    let told = "refused=7 1 0\ncircle=-p +c 5\ncircle=+c -p 6\n";
    prints(reambodkin::clerk_check, reambodkin::CHECK_OUT, circle, told);
    prints(reambodkin::clerk_blank, reambodkin::CARD_OUT, circle, "refused=7 1 0\n");
}
