//! The generator, the shapes at the limits, and a short run by the book.

use second::{
    generate::{generate, random_of},
    limits::{Listing, Shape},
    outlook::patterns,
    sheet::Sheet,
    statistic::Statistic,
    step::Case,
    survey::{Answers, check_by_book},
};

#[test]
fn a_case_of_a_seed_is_always_the_same() {
    for index in 0..200 {
        assert_eq!(generate(7, index), generate(7, index));
    }
    assert_ne!(generate(7, 1), generate(8, 1));
}

#[test]
fn small_sheets_are_as_in_the_book() {
    let mut statistic = Statistic::default();
    for index in 0..4_000 {
        let papers = generate(3, index);
        Answers::of(&papers).count(&papers, &mut statistic);
        if let Err(difference) = check_by_book(&papers, &mut random_of(4, index)) {
            panic!("case {index}: {difference}\n{papers}");
        }
    }
    println!("{}", statistic.table().0);
}

#[test]
fn clerk_shows_the_lines_of_the_sheet() {
    let mut shown = 0;
    for index in 0..4_000 {
        let papers = generate(5, index);
        let printed = String::from_utf8(second::clerk_why(&papers.joined())).expect("printed text");
        let sheet = String::from_utf8_lossy(&papers.sheet);
        let sheet: Vec<&str> = sheet.split('\n').collect();
        for line in printed.lines() {
            let Some((status, told)) = line.strip_prefix("why=").and_then(|rest| rest.split_once(" line ")) else {
                continue;
            };
            let (number, _) = told.split_once(' ').expect("a line's number");
            let (_, words) = told.split_once(':').expect("a rule's words");
            let number: usize = number.parse().expect("a number");
            assert_eq!(sheet[number - 1], format!("rule={status}{words}"), "case {index}\n{papers}");
            shown += 1;
        }
    }
    assert!(shown > 1_000, "{shown} lines shown");
}

#[test]
fn blank_cards_are_taken() {
    let mut taken = 0;
    for index in 0..4_000 {
        let papers = generate(6, index);
        let blank = second::clerk_blank(&papers.sheet);
        let Ok(sheet) = Sheet::read(&papers.sheet) else {
            assert!(blank.starts_with(b"refused="), "case {index}\n{papers}");
            continue;
        };
        if blank == b"refused=7 1 0\n" {
            continue;
        }
        for event in &sheet.names.events {
            let values: String =
                event.fields.iter().map(|&field| format!(" {}=?", sheet.names.fields[field].escape_ascii())).collect();
            let line = format!("{}{values}\n", event.name.escape_ascii());
            let next = second::step(&papers.sheet, &blank, line.as_bytes(), 1_024);
            assert!(next.is_ok(), "case {index}, {line}{next:?}\n{papers}");
            taken += 1;
        }
    }
    assert!(taken > 1_000, "{taken} steps taken");
}

#[test]
fn the_full_shape_is_at_every_limit() {
    for listing in Listing::ALL {
        let papers = Shape { listing, ..Shape::FULL }.papers();
        assert_eq!(papers.sheet.len(), 32_768);
        let sheet = Sheet::read(&papers.sheet).expect("taken");
        assert_eq!((sheet.names.fields.len(), sheet.names.events.len(), sheet.names.statuses.len()), (16, 16, 32));
        assert_eq!(sheet.rules.len(), 128);
        let mut leaves = 0;
        for condition in sheet.rules.iter().filter_map(|rule| rule.condition.as_ref()) {
            condition.leaves(&mut |_| leaves += 1);
        }
        assert_eq!(leaves, 512);
        let checked = second::clerk_check(&papers.sheet);
        assert!(checked.ends_with(b"\nrules=128\nleaves=512\n"), "{}", checked.escape_ascii());
        let case = Case::read(&papers.sheet, &papers.card, &papers.event).expect("taken");
        assert_eq!(patterns(&case).expect("not too many").len(), 4_096);
    }
}

#[test]
fn one_byte_or_one_rule_more_is_too_much() {
    let longer = Shape { bytes: Some(32_769), missing: 0, ..Shape::FULL }.papers();
    assert_eq!(longer.sheet.len(), 32_769);
    let refused = second::step(&longer.sheet, &longer.card, &longer.event, 1_024).expect_err("too long");
    assert_eq!(refused.numbers(), [1, 1, 0]);
    let more = Shape { rules: 129, bytes: None, missing: 0, ..Shape::FULL }.papers();
    let refused = second::step(&more.sheet, &more.card, &more.event, 1_024).expect_err("too many rules");
    assert_eq!(refused.numbers(), [6, 1, 194]);
}
