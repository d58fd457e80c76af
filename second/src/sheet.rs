//! The sheet: fields, events, stages, miles and rules.

use std::collections::HashMap;

use crate::{
    condition::{Condition, ConditionReader},
    piece::{Reader, read_paper},
    refusal::{Fault, Paper, Refusal},
};

pub const SHEET_BYTES: usize = 32_768;
pub const FIELDS: usize = 16;
pub const EVENTS: usize = 16;
pub const STATUSES: usize = 32;
pub const RULES: usize = 128;

#[derive(Clone, Copy, Debug, PartialEq, Eq)]
pub enum Named {
    Field(usize),
    Event(usize),
    Status(usize),
}

#[derive(Debug)]
pub struct Event<'a> {
    pub name: &'a [u8],
    /// The fields it carries, in the order of its line.
    pub fields: Vec<usize>,
}

#[derive(Debug)]
pub struct Status<'a> {
    pub name: &'a [u8],
    /// The parent of a stage, the home of a mile.
    pub parent: Option<usize>,
    /// Its line of the sheet.
    pub line: usize,
}

/// What the sheet says above its rules.
#[derive(Debug)]
pub struct Names<'a> {
    pub model: &'a [u8],
    pub fields: Vec<&'a [u8]>,
    pub events: Vec<Event<'a>>,
    /// Stages first, then miles.
    pub statuses: Vec<Status<'a>>,
    /// How many of the statuses are stages.
    pub stages: usize,
    /// What each name stands for.
    named: HashMap<&'a [u8], Named>,
}

#[derive(Clone, Copy, Debug, PartialEq, Eq)]
pub enum Change {
    Rise,
    Fall,
}

#[derive(Clone, Copy, Debug, PartialEq, Eq)]
pub enum Trigger {
    Event(usize),
    Status(Change, usize),
}

#[derive(Debug)]
pub struct Rule<'a> {
    pub change: Change,
    pub status: usize,
    pub trigger: Option<Trigger>,
    pub condition: Option<Condition>,
    /// Its line of the sheet.
    pub line: usize,
    /// What stands behind its status, up to and with the LF.
    pub words: &'a [u8],
}

impl Rule<'_> {
    /// Of its condition; a rule without one is as one whose condition is true.
    pub fn condition_value(&self, statuses: u32, values: &[Option<i64>]) -> Option<bool> {
        self.condition.as_ref().map_or(Some(true), |condition| condition.value(statuses, values))
    }
}

#[derive(Debug)]
pub struct Sheet<'a> {
    pub names: Names<'a>,
    pub rules: Vec<Rule<'a>>,
}

impl<'a> Sheet<'a> {
    /// Reads the lines; whether the graph has a cycle is not asked here.
    pub fn read(bytes: &'a [u8]) -> Result<Sheet<'a>, Refusal> {
        read_paper(Paper::Sheet, bytes, SHEET_BYTES, |reader| {
            let names = Names::read(reader)?;
            let rules = read_rules(reader, &names)?;
            reader.last_line(rules.len())?;
            Ok(Sheet { names, rules })
        })
    }

    /// Every comparison on the sheet.
    pub fn comparisons(&self) -> Vec<crate::condition::Comparison> {
        let mut found = Vec::new();
        for condition in self.rules.iter().filter_map(|rule| rule.condition.as_ref()) {
            condition.leaves(&mut |leaf| {
                if let Condition::Compare(comparison) = leaf {
                    found.push(*comparison);
                }
            });
        }
        found
    }
}

impl<'a> Names<'a> {
    pub fn find(&self, name: &[u8]) -> Option<Named> {
        self.named.get(name).copied()
    }

    fn read(reader: &mut Reader<'a>) -> Result<Names<'a>, Fault> {
        reader.due(b"model=")?;
        let model = reader.name()?;
        reader.line_end()?;
        let mut names = Names {
            model,
            fields: Vec::new(),
            events: Vec::new(),
            statuses: Vec::new(),
            stages: 0,
            named: HashMap::new(),
        };
        while reader.take(b"field=") {
            not_full(names.fields.len(), FIELDS)?;
            let field = names.new_name(reader)?;
            reader.line_end()?;
            names.named.insert(field, Named::Field(names.fields.len()));
            names.fields.push(field);
        }
        while reader.take(b"event=") {
            not_full(names.events.len(), EVENTS)?;
            let event = names.event_line(reader)?;
            names.named.insert(event.name, Named::Event(names.events.len()));
            names.events.push(event);
        }
        while reader.take(b"stage=") {
            let stage = names.status_line(reader)?;
            names.add_status(stage);
            names.stages += 1;
        }
        while reader.take(b"mile=") {
            let mile = names.status_line(reader)?;
            names.add_status(mile);
        }
        Ok(names)
    }

    fn add_status(&mut self, status: Status<'a>) {
        self.named.insert(status.name, Named::Status(self.statuses.len()));
        self.statuses.push(status);
    }

    fn new_name(&self, reader: &mut Reader<'a>) -> Result<&'a [u8], Fault> {
        let name = reader.name()?;
        if self.find(name).is_some() { Err(Fault::Name) } else { Ok(name) }
    }

    fn event_line(&self, reader: &mut Reader<'a>) -> Result<Event<'a>, Fault> {
        let name = self.new_name(reader)?;
        let mut fields = Vec::new();
        while reader.take(b" ") {
            match self.find(reader.name()?) {
                Some(Named::Field(field)) if !fields.contains(&field) => fields.push(field),
                _ => return Err(Fault::Name),
            }
        }
        reader.line_end()?;
        Ok(Event { name, fields })
    }

    /// A stage with its parent or a mile with its home, behind the key.
    fn status_line(&self, reader: &mut Reader<'a>) -> Result<Status<'a>, Fault> {
        not_full(self.statuses.len(), STATUSES)?;
        let line = reader.line();
        let name = self.new_name(reader)?;
        let mut parent = None;
        if reader.take(b" ") {
            match self.find(reader.name()?) {
                Some(Named::Status(stage)) if stage < self.stages => parent = Some(stage),
                _ => return Err(Fault::Name),
            }
        }
        reader.line_end()?;
        Ok(Status { name, parent, line })
    }

    /// The name of a status, as rules use it.
    fn status(&self, reader: &mut Reader<'a>) -> Result<usize, Fault> {
        match self.find(reader.name()?) {
            Some(Named::Status(status)) => Ok(status),
            _ => Err(Fault::Name),
        }
    }
}

fn not_full(count: usize, limit: usize) -> Result<(), Fault> {
    if count == limit { Err(Fault::Full) } else { Ok(()) }
}

fn sign(reader: &mut Reader) -> Option<Change> {
    if reader.take(b"+") {
        Some(Change::Rise)
    } else if reader.take(b"-") {
        Some(Change::Fall)
    } else {
        None
    }
}

fn read_rules<'a>(reader: &mut Reader<'a>, names: &Names<'a>) -> Result<Vec<Rule<'a>>, Fault> {
    let mut rules = Vec::new();
    let mut leaves = 0;
    while reader.take(b"rule=") {
        not_full(rules.len(), RULES)?;
        rules.push(read_rule(reader, names, &mut leaves)?);
    }
    Ok(rules)
}

fn read_rule<'a>(reader: &mut Reader<'a>, names: &Names<'a>, leaves: &mut usize) -> Result<Rule<'a>, Fault> {
    let line = reader.line();
    let change = sign(reader).ok_or(Fault::Line)?;
    let status = names.status(reader)?;
    let start = reader.at();
    let trigger = if reader.take(b" on ") { Some(read_trigger(reader, names)?) } else { None };
    let condition = if reader.take(b" if ") {
        Some(ConditionReader { reader, names, leaves }.whole()?)
    } else if trigger.is_some() {
        reader.line_end()?;
        None
    } else {
        return Err(Fault::Line);
    };
    Ok(Rule { change, status, trigger, condition, line, words: reader.read_from(start) })
}

fn read_trigger<'a>(reader: &mut Reader<'a>, names: &Names<'a>) -> Result<Trigger, Fault> {
    if let Some(change) = sign(reader) {
        return Ok(Trigger::Status(change, names.status(reader)?));
    }
    match names.find(reader.name()?) {
        Some(Named::Event(event)) => Ok(Trigger::Event(event)),
        _ => Err(Fault::Name),
    }
}
