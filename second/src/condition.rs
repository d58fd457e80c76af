//! Conditions: how they are read, and their value under Kleene's strong tables.

use crate::{
    piece::Reader,
    refusal::Fault,
    sheet::{Named, Names},
};

pub const LEAVES: usize = 512;
pub const NESTING: usize = 8;

#[derive(Clone, Copy, Debug, PartialEq, Eq)]
pub enum Operator {
    Less,
    AtMost,
    Equal,
    AtLeast,
    More,
}

#[derive(Clone, Copy, Debug, PartialEq, Eq)]
pub struct Comparison {
    pub field: usize,
    pub operator: Operator,
    pub number: i64,
}

impl Comparison {
    pub fn answer(&self, value: i64) -> bool {
        match self.operator {
            Operator::Less => value < self.number,
            Operator::AtMost => value <= self.number,
            Operator::Equal => value == self.number,
            Operator::AtLeast => value >= self.number,
            Operator::More => value > self.number,
        }
    }
}

#[derive(Clone, Debug, PartialEq, Eq)]
pub enum Condition {
    Or(Vec<Condition>),
    And(Vec<Condition>),
    Not(Box<Condition>),
    Status(usize),
    Compare(Comparison),
}

impl Condition {
    /// True, false, or None for unknown; read on the statuses and values given.
    pub fn value(&self, statuses: u32, values: &[Option<i64>]) -> Option<bool> {
        match self {
            Condition::Or(lists) => joined(lists, true, statuses, values),
            Condition::And(items) => joined(items, false, statuses, values),
            Condition::Not(item) => item.value(statuses, values).map(|value| !value),
            Condition::Status(status) => Some(statuses >> status & 1 == 1),
            Condition::Compare(comparison) => values[comparison.field].map(|value| comparison.answer(value)),
        }
    }

    /// Visits each leaf, a status or a comparison, from left to right.
    pub fn leaves<'c>(&'c self, visit: &mut impl FnMut(&'c Condition)) {
        match self {
            Condition::Or(parts) | Condition::And(parts) => parts.iter().for_each(|part| part.leaves(visit)),
            Condition::Not(item) => item.leaves(visit),
            Condition::Status(_) | Condition::Compare(_) => visit(self),
        }
    }
}

/// An or (deciding value true) or an and (deciding value false) of the parts.
fn joined(parts: &[Condition], deciding: bool, statuses: u32, values: &[Option<i64>]) -> Option<bool> {
    let mut known = true;
    for part in parts {
        match part.value(statuses, values) {
            Some(value) if value == deciding => return Some(deciding),
            Some(_) => {}
            None => known = false,
        }
    }
    known.then_some(!deciding)
}

/// Reads conditions and counts the leaves of the whole sheet.
pub struct ConditionReader<'r, 'a> {
    pub reader: &'r mut Reader<'a>,
    pub names: &'r Names<'a>,
    pub leaves: &'r mut usize,
}

impl ConditionReader<'_, '_> {
    /// A condition up to and with the LF behind it.
    pub fn whole(mut self) -> Result<Condition, Fault> {
        let condition = self.condition(0)?;
        if !self.reader.at_end() && !self.reader.next_is(b'\n') {
            return Err(Fault::Cond);
        }
        self.reader.line_end()?;
        Ok(condition)
    }

    fn condition(&mut self, depth: usize) -> Result<Condition, Fault> {
        let first = self.and_list(depth)?;
        if !self.reader.take(b" or ") {
            return Ok(first);
        }
        let mut lists = vec![first, self.and_list(depth)?];
        while self.reader.take(b" or ") {
            lists.push(self.and_list(depth)?);
        }
        Ok(Condition::Or(lists))
    }

    fn and_list(&mut self, depth: usize) -> Result<Condition, Fault> {
        let first = self.item(depth)?;
        if !self.reader.take(b" and ") {
            return Ok(first);
        }
        let mut items = vec![first, self.item(depth)?];
        while self.reader.take(b" and ") {
            items.push(self.item(depth)?);
        }
        Ok(Condition::And(items))
    }

    fn item(&mut self, depth: usize) -> Result<Condition, Fault> {
        if self.reader.take(b"not ") {
            let item = self.item(deeper(depth)?)?;
            return Ok(Condition::Not(Box::new(item)));
        }
        if self.reader.take(b"(") {
            let group = self.condition(deeper(depth)?)?;
            if self.reader.at_end() {
                return Err(Fault::Line);
            }
            return if self.reader.take(b")") { Ok(group) } else { Err(Fault::Cond) };
        }
        self.leaf()
    }

    fn leaf(&mut self) -> Result<Condition, Fault> {
        let name = self.reader.name()?;
        let named = self.names.find(name);
        if !matches!(named, Some(Named::Field(_) | Named::Status(_))) {
            return Err(Fault::Name);
        }
        if *self.leaves == LEAVES {
            return Err(Fault::Full);
        }
        *self.leaves += 1;
        match named {
            Some(Named::Field(field)) => {
                let operator = self.operator()?;
                let number = self.reader.number()?;
                Ok(Condition::Compare(Comparison { field, operator, number }))
            }
            Some(Named::Status(status)) => Ok(Condition::Status(status)),
            _ => Err(Fault::Name),
        }
    }

    fn operator(&mut self) -> Result<Operator, Fault> {
        if self.reader.at_end() {
            return Err(Fault::Line);
        }
        // The longer ones first.
        let operators: [(&[u8], Operator); 5] = [
            (b"<=", Operator::AtMost),
            (b">=", Operator::AtLeast),
            (b"<", Operator::Less),
            (b">", Operator::More),
            (b"=", Operator::Equal),
        ];
        let found = operators.iter().find(|(text, _)| self.reader.take(text));
        found.map(|(_, operator)| *operator).ok_or(Fault::Cond)
    }
}

fn deeper(depth: usize) -> Result<usize, Fault> {
    if depth == NESTING { Err(Fault::Cond) } else { Ok(depth + 1) }
}
