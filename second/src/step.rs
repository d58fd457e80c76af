//! The step: the three papers read, the rules run in a testing order.

use crate::{
    card::{Card, EventLine},
    graph::{Node, testing_order},
    piece::Value,
    refusal::Refusal,
    sheet::{Change, Rule, Sheet, Trigger},
};

/// Three papers in order.
pub struct Case<'a> {
    pub sheet: Sheet<'a>,
    pub order: Vec<Node>,
    pub event: usize,
    /// The statuses before.
    pub before: u32,
    /// The values after the event, with their texts.
    pub values: Vec<Value<'a>>,
}

/// What a step gives.
#[derive(Clone, Debug, PartialEq, Eq)]
pub struct Next {
    pub card: Vec<u8>,
    /// The tasks started: bit i is status i.
    pub tasks: u32,
}

impl<'a> Case<'a> {
    pub fn read(sheet: &'a [u8], card: &'a [u8], event: &'a [u8]) -> Result<Case<'a>, Refusal> {
        let sheet = Sheet::read(sheet)?;
        let order = testing_order(&sheet).ok_or(Refusal::CYCLE)?;
        let card = Card::read(&sheet.names, card)?;
        let line = EventLine::read(&sheet.names, event)?;
        let mut values = card.values;
        for (&field, value) in sheet.names.events[line.event].fields.iter().zip(line.values) {
            values[field] = value;
        }
        Ok(Case { sheet, order, event: line.event, before: card.statuses, values })
    }

    pub fn numbers(&self) -> Vec<Option<i64>> {
        self.values.iter().map(|value| value.number).collect()
    }

    pub fn next(&self) -> Next {
        let after = Run::new(self).statuses(&self.numbers());
        let card = Card { values: self.values.clone(), statuses: after }.write(&self.sheet.names);
        Next { card, tasks: self.tasks(after) }
    }

    /// Stages without a child stage that turned yes.
    pub fn tasks(&self, after: u32) -> u32 {
        let stages = &self.sheet.names.statuses[..self.sheet.names.stages];
        let parents = stages.iter().filter_map(|stage| stage.parent).fold(0, |set, parent| set | 1 << parent);
        let all: u64 = (1 << stages.len()) - 1;
        after & !self.before & all as u32 & !parents
    }

    pub fn was(&self, status: usize) -> bool {
        self.before >> status & 1 == 1
    }

    /// The parent or home, if any, is yes after.
    pub fn may_rise(&self, status: usize, after: u32) -> bool {
        self.sheet.names.statuses[status].parent.is_none_or(|parent| after >> parent & 1 == 1)
    }

    /// The stage's parent goes from yes to no.
    fn parent_fell(&self, status: usize, after: u32) -> bool {
        let names = &self.sheet.names;
        let parent = if status < names.stages { names.statuses[status].parent } else { None };
        parent.is_some_and(|parent| self.changed(Change::Fall, parent, after))
    }

    fn changed(&self, change: Change, status: usize, after: u32) -> bool {
        let is = after >> status & 1 == 1;
        match change {
            Change::Rise => !self.was(status) && is,
            Change::Fall => self.was(status) && !is,
        }
    }

    /// The rule's trigger, if any, comes about.
    pub fn triggered(&self, rule: &Rule, after: u32) -> bool {
        match rule.trigger {
            None => true,
            Some(Trigger::Event(event)) => event == self.event,
            Some(Trigger::Status(change, status)) => self.changed(change, status, after),
        }
    }
}

/// The rules of a case by their node, in the testing order.
pub struct Run<'c, 'a> {
    case: &'c Case<'a>,
    tests: Vec<(Node, Vec<&'c Rule<'a>>)>,
}

impl<'c, 'a> Run<'c, 'a> {
    pub fn new(case: &'c Case<'a>) -> Run<'c, 'a> {
        let mut by_node: Vec<Vec<&Rule>> = vec![Vec::new(); case.order.len()];
        for rule in &case.sheet.rules {
            by_node[Node { change: rule.change, status: rule.status }.index()].push(rule);
        }
        let tests = case.order.iter().map(|node| (*node, std::mem::take(&mut by_node[node.index()]))).collect();
        Run { case, tests }
    }

    /// The statuses after, with these values.
    pub fn statuses(&self, values: &[Option<i64>]) -> u32 {
        let mut after = self.case.before;
        for (node, rules) in &self.tests {
            let was = self.case.was(node.status);
            let due = match node.change {
                Change::Rise => !was && self.case.may_rise(node.status, after),
                Change::Fall => was,
            };
            if !due {
                continue;
            }
            let implied = node.change == Change::Fall && self.case.parent_fell(node.status, after);
            if implied || rules.iter().any(|rule| self.holds(rule, after, values)) {
                after ^= 1 << node.status;
            }
        }
        after
    }

    /// Trigger and condition of a rule whose status may change.
    fn holds(&self, rule: &Rule, after: u32, values: &[Option<i64>]) -> bool {
        self.case.triggered(rule, after) && rule.condition_value(after, values) == Some(true)
    }
}
