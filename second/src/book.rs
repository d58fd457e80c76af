//! The rules by the book: slow, for small sheets. Every after side is tried against the rules as they are written,
//! paths are searched from each node, an outlook is made from several fillings of each part, and each reason that
//! there could be is asked whether it is to be told. What the clerk's words print is read again (`printed`).

mod printed;

pub use printed::{check_card, check_named, check_sheet};

use std::collections::BTreeSet;

use crate::{
    condition::Condition,
    generate::Random,
    graph::{Node, testing_order},
    outlook,
    piece::{LEAST, MOST},
    sheet::{Change, Rule, Sheet, Trigger},
    step::{Case, Run},
    why::{Kind, Reason, reasons},
};

/// Statuses up to which all after sides are tried.
pub const FEW_STATUSES: usize = 8;
/// Combinations up to which the fillings are tried.
pub const FEW_COMBINATIONS: usize = 32;
/// Rule lines and child stages together.
pub const MOST_REASONS: usize = 128 + 31;

/// Compares the order and cycle test of an accepted or cyclic sheet with a path search.
pub fn check_graph(sheet: &Sheet) -> Result<(), String> {
    let edges = edges(sheet);
    let nodes = 2 * sheet.names.statuses.len();
    let cyclic = (0..nodes).any(|node| path_to_itself(&edges, node));
    match testing_order(sheet) {
        None if cyclic => Ok(()),
        None => Err("a cycle is told where no path leads back".into()),
        Some(_) if cyclic => Err("a cycle is not told".into()),
        Some(order) => {
            let order: Vec<usize> = order.into_iter().map(Node::index).collect();
            if is_testing_order(&edges, nodes, &order) { Ok(()) } else { Err("not a testing order".into()) }
        }
    }
}

/// Compares step and outlook of a case with all after sides, if it is small.
pub fn check_case(case: &Case, random: &mut Random) -> Result<(), String> {
    if case.sheet.names.statuses.len() > FEW_STATUSES {
        return Ok(());
    }
    let numbers = case.numbers();
    let after = Run::new(case).statuses(&numbers);
    let possible = after_sides(case, &numbers);
    if possible != [after] {
        return Err(format!("the step gives {after}, the rules {possible:?}"));
    }
    for _ in 0..3 {
        let order = some_testing_order(&case.sheet, random);
        let led_to = run(case, &order, &numbers);
        if led_to != after {
            return Err(format!("the step gives {after}, the order {order:?} leads to {led_to}"));
        }
    }
    check_outlook(case, random)
}

fn check_outlook(case: &Case, random: &mut Random) -> Result<(), String> {
    let numbers = case.numbers();
    let missing: Vec<usize> = (0..numbers.len()).filter(|&field| numbers[field].is_none()).collect();
    let parts: Vec<Vec<(i64, i64)>> = missing.iter().map(|&field| parts(&case.sheet, field)).collect();
    let product = parts.iter().fold(1u128, |product, parts| product.saturating_mul(parts.len() as u128));
    let list = outlook::patterns(case);
    if list.is_none() != (product > 4_096) {
        return Err(format!("{product} combinations, but too many: {}", list.is_none()));
    }
    let Some(list) = list else { return Ok(()) };
    if product > FEW_COMBINATIONS as u128 {
        return Ok(());
    }
    let mut found = BTreeSet::new();
    for combination in 0..product {
        for end in [true, false] {
            let mut filled = numbers.clone();
            let mut rest = combination;
            for (&field, parts) in missing.iter().zip(&parts) {
                let (low, high) = parts[(rest % parts.len() as u128) as usize];
                rest /= parts.len() as u128;
                let inside = low + (random.draw() % (high - low + 1) as u64) as i64;
                filled[field] = Some(if random.chance(3) {
                    inside
                } else if end {
                    low
                } else {
                    high
                });
            }
            let sides = after_sides(case, &filled);
            if sides.len() != 1 {
                return Err(format!("with {filled:?} the rules give {sides:?}"));
            }
            found.insert(sides[0]);
        }
    }
    let found: Vec<u32> = found.into_iter().collect();
    if found == list { Ok(()) } else { Err(format!("the outlook gives {list:?}, the rules {found:?}")) }
}

/// Compares the reasons of a case of any size with those that are to be told.
pub fn check_why(case: &Case) -> Result<(), String> {
    let given = reasons(case);
    let numbers = case.numbers();
    let after = Run::new(case).statuses(&numbers);
    let count = case.sheet.names.statuses.len();
    let mut due: Vec<Reason> = (0..count).flat_map(|status| thinkable(&case.sheet, status)).collect();
    due.retain(|reason| is_told(case, *reason, after, &numbers));
    if given != due {
        return Err(format!("the reasons are {given:?}, by the book {due:?}"));
    }
    let of = |status: usize| given.iter().filter(|reason| reason.status == status).count();
    if let Some(status) = (0..count).find(|&status| yes(case.before ^ after, status) && of(status) != 1) {
        return Err(format!("status {status} changed and has {} reasons", of(status)));
    }
    let told: Vec<u32> = given.iter().map(|reason| reason.number()).collect();
    if told.is_sorted_by(|one, next| one < next) && told.len() <= MOST_REASONS {
        Ok(())
    } else {
        Err(format!("reasons not ascending, or too many: {told:?}"))
    }
}

/// Every kind with the line of the stage over a status and with each line of its rules.
fn thinkable(sheet: &Sheet, status: usize) -> Vec<Reason> {
    let statuses = &sheet.names.statuses;
    let over = statuses[status].parent.map(|parent| statuses[parent].line);
    let own = sheet.rules.iter().filter(|rule| rule.status == status).map(|rule| rule.line);
    let lines = over.into_iter().chain(own);
    lines.flat_map(|line| Kind::ALL.map(|kind| Reason { status, line, kind })).collect()
}

/// What a reason says is so: the named rule holds and none earlier does, the parent closed and no rule holds, or the
/// named part fails and those before it do not.
fn is_told(case: &Case, reason: Reason, after: u32, values: &[Option<i64>]) -> bool {
    let names = &case.sheet.names;
    let was = yes(case.before, reason.status);
    let changed = was != yes(after, reason.status);
    let change = if was { Change::Fall } else { Change::Rise };
    let own = |rule: &&Rule| (rule.change, rule.status) == (change, reason.status);
    let rules: Vec<&Rule> = case.sheet.rules.iter().filter(own).collect();
    let first_held = rules.iter().find(|rule| holds(case, rule, after, values));
    if reason.kind == Kind::Held {
        return changed && first_held.is_some_and(|rule| rule.line == reason.line);
    }
    if reason.kind == Kind::Closed {
        let parent = names.statuses[reason.status].parent.filter(|_| reason.status < names.stages);
        let closing = parent.is_some_and(|parent| {
            names.statuses[parent].line == reason.line && yes(case.before, parent) && !yes(after, parent)
        });
        return changed && was && closing && first_held.is_none();
    }
    let Some(rule) = rules.into_iter().find(|rule| rule.line == reason.line) else { return false };
    let stops = match (triggered(case, rule, after), housed(case, rule, after), condition_of(rule, after, values)) {
        (false, _, _) => Kind::TriggerNotMet,
        (true, false, _) => Kind::HomeNotOpen,
        (true, true, -1) => Kind::ConditionFalse,
        (true, true, 0) => Kind::ConditionUnknown,
        (true, true, _) => return false,
    };
    !changed && reason.kind == stops
}

/// All after sides in which each status changes exactly when some rule for that change holds.
pub fn after_sides(case: &Case, values: &[Option<i64>]) -> Vec<u32> {
    let count = case.sheet.names.statuses.len();
    (0..1u32 << count).filter(|&after| (0..count).all(|status| changes_rightly(case, status, after, values))).collect()
}

fn changes_rightly(case: &Case, status: usize, after: u32, values: &[Option<i64>]) -> bool {
    let is = yes(after, status);
    let was = yes(case.before, status);
    let rises = some_rule_holds(case, Node { change: Change::Rise, status }, after, values);
    let falls = some_rule_holds(case, Node { change: Change::Fall, status }, after, values);
    (!was && is) == rises && (was && !is) == falls
}

fn yes(statuses: u32, status: usize) -> bool {
    statuses & 1 << status != 0
}

fn some_rule_holds(case: &Case, node: Node, after: u32, values: &[Option<i64>]) -> bool {
    let names = &case.sheet.names;
    let closes_with_parent = node.change == Change::Fall
        && node.status < names.stages
        && yes(case.before, node.status)
        && match names.statuses[node.status].parent {
            Some(parent) => yes(case.before, parent) && !yes(after, parent),
            None => false,
        };
    closes_with_parent
        || case
            .sheet
            .rules
            .iter()
            .any(|rule| (rule.change, rule.status) == (node.change, node.status) && holds(case, rule, after, values))
}

/// A rule holds when all four points do.
fn holds(case: &Case, rule: &Rule, after: u32, values: &[Option<i64>]) -> bool {
    let was_right = match rule.change {
        Change::Rise => !yes(case.before, rule.status),
        Change::Fall => yes(case.before, rule.status),
    };
    was_right && triggered(case, rule, after) && condition_of(rule, after, values) == 1 && housed(case, rule, after)
}

fn triggered(case: &Case, rule: &Rule, after: u32) -> bool {
    let before = case.before;
    match rule.trigger {
        None => true,
        Some(Trigger::Event(event)) => event == case.event,
        Some(Trigger::Status(Change::Rise, status)) => !yes(before, status) && yes(after, status),
        Some(Trigger::Status(Change::Fall, status)) => yes(before, status) && !yes(after, status),
    }
}

fn condition_of(rule: &Rule, after: u32, values: &[Option<i64>]) -> i8 {
    match &rule.condition {
        None => 1,
        Some(condition) => kleene(condition, after, values),
    }
}

fn housed(case: &Case, rule: &Rule, after: u32) -> bool {
    match (rule.change, case.sheet.names.statuses[rule.status].parent) {
        (Change::Rise, Some(parent)) => yes(after, parent),
        _ => true,
    }
}

/// Kleene's tables on numbers: false -1, unknown 0, true 1; not is minus, and the least, or the greatest.
fn kleene(condition: &Condition, after: u32, values: &[Option<i64>]) -> i8 {
    match condition {
        Condition::Or(lists) => lists.iter().map(|list| kleene(list, after, values)).max().unwrap_or(-1),
        Condition::And(items) => items.iter().map(|item| kleene(item, after, values)).min().unwrap_or(1),
        Condition::Not(item) => -kleene(item, after, values),
        Condition::Status(status) => i8::from(yes(after, *status)) * 2 - 1,
        Condition::Compare(comparison) => match values[comparison.field] {
            None => 0,
            Some(value) => i8::from(comparison.answer(value)) * 2 - 1,
        },
    }
}

/// What a testing order leads to, each node tested on the card half made so far.
fn run(case: &Case, order: &[usize], values: &[Option<i64>]) -> u32 {
    let mut half_made = case.before;
    for &index in order {
        let node = Node::of_index(index);
        if some_rule_holds(case, node, half_made, values) {
            match node.change {
                Change::Rise => half_made |= 1 << node.status,
                Change::Fall => half_made &= !(1 << node.status),
            }
        }
    }
    half_made
}

fn plus(status: usize) -> usize {
    2 * status
}

fn minus(status: usize) -> usize {
    2 * status + 1
}

/// The edges as pairs, source and target.
fn edges(sheet: &Sheet) -> BTreeSet<(usize, usize)> {
    let mut edges = BTreeSet::new();
    for rule in &sheet.rules {
        edges.extend(edges_of(sheet, rule));
    }
    for child in 0..sheet.names.stages {
        if let Some(parent) = sheet.names.statuses[child].parent {
            edges.insert((minus(parent), minus(child)));
        }
    }
    edges
}

/// The edges that a rule gives.
fn edges_of(sheet: &Sheet, rule: &Rule) -> Vec<(usize, usize)> {
    let mut edges = Vec::new();
    let target = match rule.change {
        Change::Rise => plus(rule.status),
        Change::Fall => minus(rule.status),
    };
    match rule.trigger {
        Some(Trigger::Status(Change::Rise, status)) => edges.push((plus(status), target)),
        Some(Trigger::Status(Change::Fall, status)) => edges.push((minus(status), target)),
        Some(Trigger::Event(_)) | None => {}
    }
    let mut read = Vec::new();
    if let Some(condition) = &rule.condition {
        condition.leaves(&mut |leaf| {
            if let Condition::Status(status) = leaf {
                read.push(*status);
            }
        });
    }
    if rule.change == Change::Rise {
        read.extend(sheet.names.statuses[rule.status].parent);
    }
    for status in read {
        edges.push((plus(status), target));
        edges.push((minus(status), target));
    }
    edges
}

fn path_to_itself(edges: &BTreeSet<(usize, usize)>, node: usize) -> bool {
    let mut reached = BTreeSet::new();
    let mut open = vec![node];
    while let Some(at) = open.pop() {
        for &(_, target) in edges.range((at, 0)..(at + 1, 0)) {
            if target == node {
                return true;
            }
            if reached.insert(target) {
                open.push(target);
            }
        }
    }
    false
}

fn is_testing_order(edges: &BTreeSet<(usize, usize)>, nodes: usize, order: &[usize]) -> bool {
    let place = |node: usize| order.iter().position(|at| *at == node);
    order.len() == nodes
        && (0..nodes).all(|node| place(node).is_some())
        && edges.iter().all(|&(source, target)| place(source) < place(target))
}

/// A testing order drawn by chance: some node whose sources are all named comes next.
fn some_testing_order(sheet: &Sheet, random: &mut Random) -> Vec<usize> {
    let edges = edges(sheet);
    let nodes = 2 * sheet.names.statuses.len();
    let mut order: Vec<usize> = Vec::new();
    while order.len() < nodes {
        let ready: Vec<usize> = (0..nodes)
            .filter(|node| !order.contains(node))
            .filter(|node| edges.iter().all(|(source, target)| target != node || order.contains(source)))
            .collect();
        order.push(ready[random.below(ready.len())]);
    }
    order
}

/// The parts of a field with their two ends; the cuts are looked for some way around each constant.
fn parts(sheet: &Sheet, field: usize) -> Vec<(i64, i64)> {
    let comparisons: Vec<_> = sheet.comparisons().into_iter().filter(|found| found.field == field).collect();
    let mut parts = vec![];
    let mut low = LEAST;
    let tried: BTreeSet<i64> = comparisons.iter().flat_map(|found| found.number - 3..=found.number + 3).collect();
    for v in tried {
        let inside = LEAST < v && v <= MOST;
        if inside && comparisons.iter().any(|found| found.answer(v - 1) != found.answer(v)) {
            parts.push((low, v - 1));
            low = v;
        }
    }
    parts.push((low, MOST));
    parts
}
