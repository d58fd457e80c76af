//! The document's examples, byte for byte, and the odd corners.

use second::{
    examples::{
        CARD_Q, DeskExample, SHEET_P, blank_examples, card_examples, check_examples, clerk_examples, corner_examples,
        desk_examples, named_examples, why_examples,
    },
    outlook::cuts,
    sheet::Sheet,
    step::Case,
};

fn prints(program: fn(&[u8]) -> Vec<u8>, examples: Vec<DeskExample>) {
    for example in examples {
        let printed = String::from_utf8(program(&example.input)).expect("printed text");
        assert_eq!(printed, example.output, "{}", example.name);
    }
}

#[test]
fn desk_prints_what_the_document_says() {
    prints(second::desk, desk_examples());
}

#[test]
fn corners_are_answered_as_read() {
    for example in corner_examples() {
        let papers = &example.papers;
        let step = second::step(&papers.sheet, &papers.card, &papers.event, 1_024);
        let answer = step.map_or_else(|refusal| refusal.numbers(), |_| [0, 0, 0]);
        assert_eq!(answer, example.answer, "{}\n{papers}", example.name);
    }
}

#[test]
fn step_lists_tasks_and_needs_room() {
    let step = |room| second::step(SHEET_P.as_bytes(), CARD_Q.as_bytes(), b"looked income=900\n", room);
    let next = step(1_024).expect("taken");
    assert_eq!(next.tasks, 0b10);
    let need = next.card.len();
    assert_eq!(step(need), Ok(next));
    assert_eq!(step(need - 1).expect_err("no room").numbers(), [9, 0, 0]);
}

#[test]
fn outlook_needs_room_for_its_entries() {
    let outlook = |room| second::outlook(SHEET_P.as_bytes(), CARD_Q.as_bytes(), b"looked income=?\n", room);
    assert_eq!(outlook(2), Ok(vec![7, 9]));
    assert_eq!(outlook(1).expect_err("no room").numbers(), [9, 0, 0]);
}

#[test]
fn many_comes_before_room_and_never_from_the_step() {
    let example = desk_examples().into_iter().find(|example| example.name == "4,097 parts").expect("there");
    let (sheet, rest) = second::desk::split(&example.input);
    let (card, event) = second::desk::split(rest);
    assert_eq!(second::outlook(sheet, card, event, 0).expect_err("too many").numbers(), [10, 0, 0]);
    assert_eq!(second::step(sheet, card, event, 0).expect_err("no room").numbers(), [9, 0, 0]);
    assert!(second::step(sheet, card, event, 1_024).is_ok());
}

#[test]
fn why_tells_what_the_request_says() {
    for example in why_examples() {
        let papers = &example.papers;
        let reasons = second::why(&papers.sheet, &papers.card, &papers.event, example.room);
        assert_eq!(reasons.map_err(|refusal| refusal.numbers()), example.answer, "{}\n{papers}", example.name);
    }
}

#[test]
fn clerk_prints_what_the_request_says() {
    prints(second::clerk_why, clerk_examples());
    prints(second::clerk_card, card_examples());
    prints(second::clerk_outlook, named_examples());
    prints(second::clerk_check, check_examples());
    prints(second::clerk_blank, blank_examples());
}

#[test]
fn clerk_refuses_as_the_desk_does() {
    let refused = || desk_examples().into_iter().filter(|example| example.output.starts_with("refused=")).collect();
    prints(second::clerk_why, refused());
    prints(second::clerk_card, refused());
    prints(second::clerk_outlook, refused());
}

#[test]
fn corners_of_the_sheet_are_checked_as_read() {
    for example in corner_examples() {
        let [number, paper, line] = example.answer;
        if paper == 1 {
            let refused = format!("refused={number} 1 {line}\n").into_bytes();
            assert!(second::clerk_check(&example.papers.sheet).starts_with(&refused), "{}", example.name);
            assert_eq!(second::clerk_blank(&example.papers.sheet), refused, "{}", example.name);
        } else {
            assert!(second::clerk_check(&example.papers.sheet).starts_with(b"model="), "{}", example.name);
            assert!(second::clerk_blank(&example.papers.sheet).starts_with(b"case="), "{}", example.name);
        }
    }
}

#[test]
fn cuts_at_the_ends_of_the_range() {
    let found = |condition: &str| {
        let sheet = format!("model=m\nfield=x\nmile=m\nrule=+m if {condition}\nend=1\n");
        let sheet = Sheet::read(sheet.as_bytes()).expect("taken");
        cuts(&sheet.comparisons(), 0).into_iter().collect::<Vec<_>>()
    };
    for none in ["x<-1000000000", "x>1000000000", "x>=-1000000000", "x<=1000000000"] {
        assert_eq!(found(none), [], "{none}");
    }
    assert_eq!(found("x=-1000000000"), [-999_999_999]);
    assert_eq!(found("x=1000000000"), [1_000_000_000]);
    assert_eq!(found("x=5"), [5, 6]);
    assert_eq!(found("x<5 or x>=5 or x<=4 or x>4"), [5]);
}

#[test]
fn a_status_does_not_toggle_twice() {
    // The mile falls by the event; its rise needs that it was no before.
    let sheet = b"model=m\nevent=e\nmile=a\nrule=-a on e\nrule=+a on -a\nend=2\n";
    let case = Case::read(sheet, b"case=m\na=yes\nend=1\n", b"e\n").map_err(|refusal| refusal.numbers());
    assert_eq!(case.expect("taken").next().card, b"case=m\na=no\nend=1\n");
}
