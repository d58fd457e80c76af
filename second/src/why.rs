//! Why: what changed each status that changed, and what stopped each line of the others.

use crate::{
    sheet::{Change, Rule},
    step::{Case, Run},
};

#[derive(Clone, Copy, Debug, PartialEq, Eq, PartialOrd, Ord)]
pub enum Kind {
    /// Changed: the first rule line that held.
    Held = 1,
    /// Changed: closed with its parent, no line held.
    Closed = 2,
    /// Unchanged: the line's trigger did not come about.
    TriggerNotMet = 3,
    /// Unchanged: trigger yes, home or parent not yes after.
    HomeNotOpen = 4,
    /// Unchanged: trigger and home yes, condition false.
    ConditionFalse = 5,
    /// Unchanged: trigger and home yes, condition unknown.
    ConditionUnknown = 6,
}

impl Kind {
    pub const ALL: [Kind; 6] = [
        Kind::Held,
        Kind::Closed,
        Kind::TriggerNotMet,
        Kind::HomeNotOpen,
        Kind::ConditionFalse,
        Kind::ConditionUnknown,
    ];

    pub fn words(self) -> &'static str {
        match self {
            Kind::Held => "held",
            Kind::Closed => "closed",
            Kind::TriggerNotMet => "trigger not met",
            Kind::HomeNotOpen => "home not open",
            Kind::ConditionFalse => "condition false",
            Kind::ConditionUnknown => "condition unknown",
        }
    }

    /// The kind of a reason told as a number.
    pub fn of_number(reason: u32) -> Option<Kind> {
        Kind::ALL.into_iter().find(|kind| *kind as u32 == reason % 10)
    }
}

/// In this order reasons ascend as numbers do: lines stay below 1,000 and kinds below 10.
#[derive(Clone, Copy, Debug, PartialEq, Eq, PartialOrd, Ord)]
pub struct Reason {
    pub status: usize,
    /// The rule's line of the sheet, or the parent's where its closing is meant.
    pub line: usize,
    pub kind: Kind,
}

impl Reason {
    /// As it is told.
    pub fn number(self) -> u32 {
        (self.status as u32 * 1_000 + self.line as u32) * 10 + self.kind as u32
    }
}

/// The reasons, ascending.
pub fn reasons(case: &Case) -> Vec<Reason> {
    let numbers = case.numbers();
    let after = Run::new(case).statuses(&numbers);
    let changed = case.before ^ after;
    let mut reasons = Vec::new();
    // Those that changed and have no reason yet.
    let mut untold = changed;
    for rule in case.sheet.rules.iter().filter(|rule| is_possible(case, rule)) {
        let Rule { status, line, .. } = *rule;
        if changed >> status & 1 == 0 {
            reasons.extend(stop(case, rule, after, &numbers).map(|kind| Reason { status, line, kind }));
        } else if untold >> status & 1 == 1 && stop(case, rule, after, &numbers).is_none() {
            reasons.push(Reason { status, line, kind: Kind::Held });
            untold ^= 1 << status;
        }
    }
    let statuses = &case.sheet.names.statuses;
    for (status, stage) in statuses.iter().enumerate().filter(|(status, _)| untold >> status & 1 == 1) {
        let parent = stage.parent.expect("what no line changed was closed with its parent");
        reasons.push(Reason { status, line: statuses[parent].line, kind: Kind::Closed });
    }
    reasons.sort();
    reasons
}

/// The rule is for the change that its status can make.
fn is_possible(case: &Case, rule: &Rule) -> bool {
    case.was(rule.status) == (rule.change == Change::Fall)
}

/// The first thing that stops a rule whose change is possible: trigger, home and condition are looked at in this order.
fn stop(case: &Case, rule: &Rule, after: u32, values: &[Option<i64>]) -> Option<Kind> {
    if !case.triggered(rule, after) {
        return Some(Kind::TriggerNotMet);
    }
    if rule.change == Change::Rise && !case.may_rise(rule.status, after) {
        return Some(Kind::HomeNotOpen);
    }
    match rule.condition_value(after, values) {
        Some(true) => None,
        Some(false) => Some(Kind::ConditionFalse),
        None => Some(Kind::ConditionUnknown),
    }
}
