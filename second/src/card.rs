//! The card and the event line.

use crate::{
    piece::{Reader, Value, read_paper},
    refusal::{Fault, Paper, Refusal},
    sheet::{Named, Names},
};

pub const CARD_BYTES: usize = 1_024;
pub const EVENT_BYTES: usize = 512;

#[derive(Debug)]
pub struct Card<'a> {
    /// One for each field.
    pub values: Vec<Value<'a>>,
    /// Bit i is status i.
    pub statuses: u32,
}

#[derive(Debug)]
pub struct EventLine<'a> {
    pub event: usize,
    /// One for each field that the event carries, in the order of its line on the sheet.
    pub values: Vec<Value<'a>>,
}

impl<'a> Card<'a> {
    pub fn read(names: &Names, bytes: &'a [u8]) -> Result<Card<'a>, Refusal> {
        let card = read_paper(Paper::Card, bytes, CARD_BYTES, |reader| Card::lines(names, reader))?;
        match card.first_orphan(names) {
            Some(stage) => {
                let line = 1 + names.fields.len() + stage + 1;
                Err(Refusal { fault: Fault::Orphan, paper: Paper::Card, line })
            }
            None => Ok(card),
        }
    }

    fn lines(names: &Names, reader: &mut Reader<'a>) -> Result<Card<'a>, Fault> {
        reader.due(b"case=")?;
        name_due(reader, names.model)?;
        reader.line_end()?;
        let mut values = Vec::with_capacity(names.fields.len());
        for field in &names.fields {
            name_due(reader, field)?;
            reader.due(b"=")?;
            values.push(reader.value()?);
            reader.line_end()?;
        }
        let mut statuses = 0;
        for (index, status) in names.statuses.iter().enumerate() {
            name_due(reader, status.name)?;
            reader.due(b"=")?;
            if reader.take(b"yes") {
                statuses |= 1 << index;
            } else {
                reader.due(b"no")?;
            }
            reader.line_end()?;
        }
        reader.last_line(names.fields.len() + names.statuses.len())?;
        Ok(Card { values, statuses })
    }

    fn first_orphan(&self, names: &Names) -> Option<usize> {
        let yes = |status: usize| self.statuses >> status & 1 == 1;
        let stages = &names.statuses[..names.stages];
        (0..stages.len()).find(|&stage| yes(stage) && stages[stage].parent.is_some_and(|parent| !yes(parent)))
    }

    /// The card as text.
    pub fn write(&self, names: &Names) -> Vec<u8> {
        let mut text = Vec::with_capacity(CARD_BYTES);
        for part in [b"case=", names.model, b"\n"] {
            text.extend_from_slice(part);
        }
        for (field, value) in names.fields.iter().zip(&self.values) {
            for part in [field, &b"="[..], value.text, b"\n"] {
                text.extend_from_slice(part);
            }
        }
        for (index, status) in names.statuses.iter().enumerate() {
            let word: &[u8] = if self.statuses >> index & 1 == 1 { b"=yes\n" } else { b"=no\n" };
            text.extend_from_slice(status.name);
            text.extend_from_slice(word);
        }
        let count = names.fields.len() + names.statuses.len();
        text.extend_from_slice(format!("end={count}\n").as_bytes());
        text
    }
}

impl<'a> EventLine<'a> {
    pub fn read(names: &Names, bytes: &'a [u8]) -> Result<EventLine<'a>, Refusal> {
        read_paper(Paper::Event, bytes, EVENT_BYTES, |reader| {
            let Some(Named::Event(event)) = names.find(reader.name()?) else {
                return Err(Fault::Name);
            };
            let mut values = Vec::new();
            for &field in &names.events[event].fields {
                reader.due(b" ")?;
                name_due(reader, names.fields[field])?;
                reader.due(b"=")?;
                values.push(reader.value()?);
            }
            reader.line_end()?;
            Ok(EventLine { event, values })
        })
    }
}

fn name_due(reader: &mut Reader, due: &[u8]) -> Result<(), Fault> {
    if reader.name()? == due { Ok(()) } else { Err(Fault::Name) }
}
