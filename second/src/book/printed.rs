//! What the clerk's words print, read again: each circle is followed edge by edge and walked once more as the request
//! says, statuses are counted pattern by pattern, and the blank card is put to use.

use std::collections::BTreeSet;

use super::{edges, edges_of, minus, path_to_itself, plus};
use crate::{card::Card, clerk_blank, clerk_card, clerk_check, clerk_outlook, desk, outlook, sheet::Sheet, step::Case};

/// Checks what `check` and `blank` print for a sheet whose lines are in order.
pub fn check_sheet(bytes: &[u8], sheet: &Sheet) -> Result<(), String> {
    let edges = edges(sheet);
    let cyclic = (0..2 * sheet.names.statuses.len()).any(|node| path_to_itself(&edges, node));
    let checked = text(clerk_check(bytes))?;
    match checked.strip_prefix("refused=7 1 0\n") {
        Some(told) if cyclic => check_circle(sheet, &edges, told)?,
        None if !cyclic => check_counts(bytes, &checked)?,
        _ => return Err(format!("a circle: {cyclic}, but check prints\n{checked}")),
    }
    let blank = clerk_blank(bytes);
    if cyclic {
        return if blank == b"refused=7 1 0\n" { Ok(()) } else { Err("blank does not refuse a circle".into()) };
    }
    match Card::read(&sheet.names, &blank) {
        Ok(card) if card.statuses == 0 && card.values.iter().all(|value| value.text == b"?") => Ok(()),
        _ => Err(format!("the blank card is not one: {}", blank.escape_ascii())),
    }
}

fn text(output: Vec<u8>) -> Result<String, String> {
    String::from_utf8(output).map_err(|_| "what is printed is no text".into())
}

/// The lines that begin with a key, and for leaves the names and comparisons behind each ` if `, are counted on the
/// sheet's own text.
fn check_counts(bytes: &[u8], told: &str) -> Result<(), String> {
    let sheet = text(bytes.to_vec())?;
    let lines = |key: &str| sheet.lines().filter(|line| line.starts_with(key)).count();
    let conditions = sheet.lines().filter_map(|line| line.strip_prefix("rule=")?.split_once(" if "));
    let words = conditions.flat_map(|(_, condition)| condition.split([' ', '(', ')']));
    let leaves = words.filter(|word| !["", "not", "and", "or"].contains(word)).count();
    let first = sheet.lines().next().unwrap_or("");
    let due = format!(
        "{first}\nfields={}\nevents={}\nstages={}\nmiles={}\nrules={}\nleaves={leaves}\n",
        lines("field="),
        lines("event="),
        lines("stage="),
        lines("mile="),
        lines("rule="),
    );
    if told == due { Ok(()) } else { Err(format!("check prints\n{told}by the book\n{due}")) }
}

/// Edges lead from a node to itself, no node comes twice, each line is the one due, and the choice is the request's.
fn check_circle(sheet: &Sheet, edges: &BTreeSet<(usize, usize)>, told: &str) -> Result<(), String> {
    let circle: Vec<(usize, usize, usize)> =
        told.lines().map(|line| told_edge(sheet, line)).collect::<Option<_>>().ok_or(format!("no circle: {told}"))?;
    let complete = told.ends_with('\n') && (1..=64).contains(&circle.len());
    let joined = (0..circle.len()).all(|at| circle[at].1 == circle[(at + 1) % circle.len()].0);
    let once: BTreeSet<usize> = circle.iter().map(|edge| edge.0).collect();
    if !complete || !joined || once.len() != circle.len() {
        return Err(format!("not a path from a node to itself with no node twice: {circle:?}"));
    }
    for &(from, to, line) in &circle {
        if !edges.contains(&(from, to)) || line != line_due(sheet, from, to) {
            return Err(format!("{from} {to} {line}: no edge, or not its line, {}", line_due(sheet, from, to)));
        }
    }
    let chosen = walked(edges, 2 * sheet.names.statuses.len());
    let from: Vec<usize> = circle.iter().map(|edge| edge.0).collect();
    if from == chosen { Ok(()) } else { Err(format!("the circle {from:?} is told, the walk gives {chosen:?}")) }
}

/// FROM, TO and LINE of a line `circle=FROM TO LINE`.
fn told_edge(sheet: &Sheet, line: &str) -> Option<(usize, usize, usize)> {
    let node = |text: &str| {
        let name = text.get(1..)?.as_bytes();
        let status = sheet.names.statuses.iter().position(|status| status.name == name)?;
        match text.as_bytes()[0] {
            b'+' => Some(plus(status)),
            b'-' => Some(minus(status)),
            _ => None,
        }
    };
    let words: Vec<&str> = line.strip_prefix("circle=")?.split(' ').collect();
    let &[from, to, number] = &words[..] else { return None };
    Some((node(from)?, node(to)?, number.parse().ok()?))
}

/// The first rule line that gives the edge; where none does, the line of the child.
fn line_due(sheet: &Sheet, from: usize, to: usize) -> usize {
    let mut given = sheet.rules.iter().filter(|rule| edges_of(sheet, rule).contains(&(from, to)));
    given.next().map_or(sheet.names.statuses[to / 2].line, |rule| rule.line)
}

/// The nodes of the circle that is to be told, each once, in the direction of the edges.
fn walked(edges: &BTreeSet<(usize, usize)>, nodes: usize) -> Vec<usize> {
    let mut left: Vec<usize> = (0..nodes).collect();
    let free =
        |left: &[usize]| left.iter().position(|&node| !left.iter().any(|&source| edges.contains(&(source, node))));
    while let Some(place) = free(&left) {
        left.remove(place);
    }
    let mut walk: Vec<usize> = left.first().copied().into_iter().collect();
    while let Some(&here) = walk.last() {
        let next = *left.iter().find(|&&source| edges.contains(&(source, here))).expect("none left is free");
        if let Some(before) = walk.iter().position(|&node| node == next) {
            // It came again: from it against the steps, back to the node behind it.
            let steps = walk.split_off(before);
            return [next].into_iter().chain(steps[1..].iter().rev().copied()).collect();
        }
        walk.push(next);
    }
    walk
}

/// Checks what `card` prints: the desk's output without what stands behind the card.
pub fn check_card(input: &[u8]) -> Result<(), String> {
    let card = clerk_card(input);
    let desk = desk(input);
    let behind = desk.strip_prefix(&card[..]).ok_or("the clerk's card is not the desk's")?;
    let others = |line: &[u8]| line.is_empty() || line.starts_with(b"start=") || line.starts_with(b"outlook=");
    if card.ends_with(b"\n") && behind.split(|byte| *byte == b'\n').all(others) {
        Ok(())
    } else {
        Err("the clerk's card is less than the desk's".into())
    }
}

/// Checks what `outlook` prints for a case, from its patterns.
pub fn check_named(input: &[u8], case: &Case) -> Result<(), String> {
    let printed = text(clerk_outlook(input))?;
    let Some(patterns) = outlook::patterns(case) else {
        return if printed == "outlook=refused\n" { Ok(()) } else { Err("the outlook does not tell MANY".into()) };
    };
    let mut lines = printed.split_terminator('\n');
    for (status, told) in case.sheet.names.statuses.iter().enumerate() {
        let yes = patterns.iter().filter(|pattern| **pattern & 1 << status != 0).count();
        let word = match yes {
            _ if yes == patterns.len() => "always",
            0 => "never",
            _ => "open",
        };
        let name = told.name.escape_ascii();
        if lines.next() != Some(&format!("{name}={word}")) {
            return Err(format!("{name} is yes in {yes} of {} patterns, but\n{printed}", patterns.len()));
        }
    }
    let listed: Option<Vec<u32>> = lines.map(|line| pattern_of(case, line)).collect();
    if printed.ends_with('\n') && listed.as_ref() == Some(&patterns) {
        Ok(())
    } else {
        Err(format!("the patterns are {patterns:?}, in names\n{printed}"))
    }
}

/// The pattern of a line `outlook=NAMES`, whose names stand in the sheet's order.
fn pattern_of(case: &Case, line: &str) -> Option<u32> {
    let names = line.strip_prefix("outlook=")?;
    if names.is_empty() {
        return Some(0);
    }
    let statuses = &case.sheet.names.statuses;
    let place = |name: &str| statuses.iter().position(|status| status.name == name.as_bytes());
    let places: Vec<usize> = names.split(' ').map(place).collect::<Option<_>>()?;
    places.is_sorted_by(|one, next| one < next).then(|| places.iter().map(|place| 1 << place).sum())
}
