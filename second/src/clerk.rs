//! The clerk's program with each of its words, from its input to its output.

use crate::{
    card::Card,
    circle::{Edge, circle},
    desk::{printed, refused},
    graph::{Node, testing_order},
    outlook,
    piece::Value,
    refusal::Refusal,
    sheet::{Change, Sheet},
    step::Case,
    why::{Kind, Reason, reasons},
};

/// `why`: a line for each reason.
pub fn clerk_why(input: &[u8]) -> Vec<u8> {
    printed(input, |case| reasons(case).into_iter().flat_map(|reason| line(case, reason)).collect())
}

/// `card`: the next card alone.
pub fn clerk_card(input: &[u8]) -> Vec<u8> {
    printed(input, |case| case.next().card)
}

/// `outlook`: what may still come, in names.
pub fn clerk_outlook(input: &[u8]) -> Vec<u8> {
    printed(input, named_outlook)
}

/// `check`: what a sheet has, or why it is not taken.
pub fn clerk_check(input: &[u8]) -> Vec<u8> {
    let sheet = match Sheet::read(input) {
        Ok(sheet) => sheet,
        Err(refusal) => return refused(refusal),
    };
    match circle(&sheet) {
        None => counts(&sheet),
        Some(edges) => {
            let lines = edges.into_iter().flat_map(|edge| circle_line(&sheet, edge));
            refused(Refusal::CYCLE).into_iter().chain(lines).collect()
        }
    }
}

/// `blank`: the card of a sheet with nothing known yet.
pub fn clerk_blank(input: &[u8]) -> Vec<u8> {
    let taken = Sheet::read(input).and_then(|sheet| testing_order(&sheet).map(|_| sheet).ok_or(Refusal::CYCLE));
    taken.map_or_else(refused, |sheet| {
        let unknown = Value { text: b"?", number: None };
        Card { values: vec![unknown; sheet.names.fields.len()], statuses: 0 }.write(&sheet.names)
    })
}

/// The line of a reason, with its LF.
fn line(case: &Case, reason: Reason) -> Vec<u8> {
    let statuses = &case.sheet.names.statuses;
    let status = &statuses[reason.status];
    let sign = if case.was(reason.status) { b"-" } else { b"+" };
    let words = reason.kind.words().as_bytes();
    let mut line = [b"why=", &sign[..], status.name].concat();
    if let (Kind::Closed, Some(parent)) = (reason.kind, status.parent) {
        line.extend([b" parent ", statuses[parent].name, b" ", words, b"\n"].concat());
    } else {
        let rule = case.sheet.rules.iter().find(|rule| rule.line == reason.line).expect("a rule's line");
        line.extend(format!(" line {} ", rule.line).as_bytes());
        line.extend([words, b":", rule.words].concat());
    }
    line
}

/// For each status whether it is yes always, never or sometimes; then the patterns.
fn named_outlook(case: &Case) -> Vec<u8> {
    let Some(patterns) = outlook::patterns(case) else { return b"outlook=refused\n".to_vec() };
    let names: Vec<&[u8]> = case.sheet.names.statuses.iter().map(|status| status.name).collect();
    let in_all = patterns.iter().fold(u32::MAX, |both, pattern| both & pattern);
    let in_some = patterns.iter().fold(0, |either, pattern| either | pattern);
    let mut output = Vec::new();
    for (status, name) in names.iter().enumerate() {
        let word: &[u8] = match (in_all >> status & 1, in_some >> status & 1) {
            (1, _) => b"=always\n",
            (_, 0) => b"=never\n",
            _ => b"=open\n",
        };
        output.extend([name, word].concat());
    }
    for pattern in patterns {
        let yes = names.iter().enumerate().filter(|(status, _)| pattern >> status & 1 == 1);
        let yes: Vec<&[u8]> = yes.map(|(_, name)| *name).collect();
        output.extend([b"outlook=", &yes.join(&b' ')[..], b"\n"].concat());
    }
    output
}

/// What an accepted sheet has.
fn counts(sheet: &Sheet) -> Vec<u8> {
    let names = &sheet.names;
    let mut leaves = 0;
    for condition in sheet.rules.iter().filter_map(|rule| rule.condition.as_ref()) {
        condition.leaves(&mut |_| leaves += 1);
    }
    let counted = [
        ("fields", names.fields.len()),
        ("events", names.events.len()),
        ("stages", names.stages),
        ("miles", names.statuses.len() - names.stages),
        ("rules", sheet.rules.len()),
        ("leaves", leaves),
    ];
    let mut output = [b"model=", names.model, b"\n"].concat();
    output.extend(counted.map(|(what, count)| format!("{what}={count}\n")).concat().bytes());
    output
}

fn circle_line(sheet: &Sheet, edge: Edge) -> Vec<u8> {
    let node = |node: Node| {
        let sign: &[u8] = if node.change == Change::Rise { b"+" } else { b"-" };
        [sign, sheet.names.statuses[node.status].name].concat()
    };
    let line = format!(" {}\n", edge.line);
    [b"circle=", &node(edge.from)[..], b" ", &node(edge.to), line.as_bytes()].concat()
}
