//! Sheets of a given shape, up to the limits, for the benchmarks and for other tools.
//!
//! All statuses are no before and every rule is a `+` rule on the event that comes, so each condition is read. Of the
//! rules of a status only the last can hold. Each `?` field opens one mile, so that all combinations differ.

use crate::papers::Papers;

/// The order in which the patterns come up when the combinations are run through, parts from low to high.
#[derive(Clone, Copy, Debug, PartialEq, Eq)]
pub enum Listing {
    /// Ascending if the last field moves fastest.
    LastAscending,
    LastDescending,
    /// Ascending if the first field moves fastest.
    FirstAscending,
    FirstDescending,
}

impl Listing {
    pub const ALL: [Listing; 4] =
        [Listing::LastAscending, Listing::LastDescending, Listing::FirstAscending, Listing::FirstDescending];
}

#[derive(Clone, Copy, Debug)]
pub struct Shape {
    pub fields: usize,
    pub events: usize,
    pub statuses: usize,
    pub rules: usize,
    pub leaves: usize,
    /// How many fields are `?`, each with two parts.
    pub missing: usize,
    pub listing: Listing,
    /// The length that the sheet is brought to by nots and groups.
    pub bytes: Option<usize>,
}

enum Unit {
    One(Leaf),
    /// In a group, joined by or.
    Either(Leaf, Leaf),
}

struct Leaf {
    text: String,
    depth: usize,
}

struct RuleDraft {
    head: String,
    units: Vec<Unit>,
}

impl Shape {
    /// Everything at its limit.
    pub const FULL: Shape = Shape {
        fields: 16,
        events: 16,
        statuses: 32,
        rules: 128,
        leaves: 512,
        missing: 12,
        listing: Listing::LastDescending,
        bytes: Some(32_768),
    };

    pub const MIDDLE: Shape =
        Shape { fields: 6, events: 5, statuses: 12, rules: 36, leaves: 100, missing: 5, bytes: None, ..Shape::FULL };

    pub fn papers(&self) -> Papers {
        let mut model = "modelnumbr01".to_string();
        let mut rules: Vec<RuleDraft> = (0..self.rules).map(|index| self.rule(index)).collect();
        let length = self.sheet(&model, &rules).len();
        if let Some(bytes) = self.bytes {
            let mut missing = bytes.saturating_sub(length);
            if missing % 2 == 1 {
                // Nots and groups have even lengths.
                model.pop();
                missing += 1;
            }
            fill(&mut rules, missing);
        }
        Papers { sheet: self.sheet(&model, &rules).into(), card: self.card(&model).into(), event: self.event().into() }
    }

    fn stages(&self) -> usize {
        self.statuses / 2
    }

    fn status(&self, index: usize) -> String {
        match index.checked_sub(self.stages()) {
            None => format!("stagenumbr{index:02}"),
            Some(mile) => format!("milesnumbr{mile:02}"),
        }
    }

    /// Which `?` field opens this status, if one does: those at the end.
    fn opener(&self, status: usize) -> Option<usize> {
        let place = (status + self.missing).checked_sub(self.statuses)?;
        match self.listing {
            Listing::LastAscending | Listing::LastDescending => Some(self.missing - 1 - place),
            Listing::FirstAscending | Listing::FirstDescending => Some(place),
        }
    }

    fn rule(&self, index: usize) -> RuleDraft {
        let status = index % self.statuses;
        let last = index + self.statuses >= self.rules;
        let leaves = self.leaves / self.rules + usize::from(index < self.leaves % self.rules);
        let mut head = format!("+{} on {}", self.status(status), event_name(0));
        if leaves > 0 {
            head += " if ";
        }
        let mut units = vec![];
        let mut left = leaves.saturating_sub(1);
        while left > 0 {
            if left >= 2 && status > 0 {
                let read = self.status((7 * index + 3 * left) % status);
                units.push(Unit::Either(
                    Leaf { text: read, depth: 1 },
                    Leaf { text: self.known(index + left, true), depth: 1 },
                ));
                left -= 2;
            } else {
                units.push(Unit::One(Leaf { text: self.known(index + left, true), depth: 0 }));
                left -= 1;
            }
        }
        if leaves > 0 {
            let text = match self.opener(status) {
                _ if !last => self.known(index, false),
                Some(field) => self.opening(field),
                None => self.known(index, true),
            };
            units.push(Unit::One(Leaf { text, depth: 0 }));
        }
        RuleDraft { head, units }
    }

    /// A comparison of a field whose number is known, true or false.
    fn known(&self, index: usize, answer: bool) -> String {
        let known = self.fields - self.missing;
        let number = 100_000_001 + (index as i64 * 7_919) % 90_000_000;
        let operator = if answer { ">=" } else { "<=" };
        match known {
            0 => format!("{}{operator}-1000000000", field_name(0)),
            _ => format!("{}{operator}-{number}", field_name(self.missing + index % known)),
        }
    }

    fn opening(&self, field: usize) -> String {
        let operator = match self.listing {
            Listing::LastAscending | Listing::FirstAscending => ">=",
            Listing::LastDescending | Listing::FirstDescending => "<",
        };
        format!("{}{operator}1000", field_name(field))
    }

    fn sheet(&self, model: &str, rules: &[RuleDraft]) -> String {
        let mut text = format!("model={model}\n");
        for field in 0..self.fields {
            text += &format!("field={}\n", field_name(field));
        }
        for event in 0..self.events {
            text += &format!("event={}", event_name(event));
            for field in self.carried(event) {
                text += &format!(" {}", field_name(field));
            }
            text.push('\n');
        }
        for status in 0..self.statuses {
            let key = if status < self.stages() { "stage" } else { "mile" };
            text += &format!("{key}={}", self.status(status));
            if status > 0 && self.stages() > 0 {
                let parent = if status < self.stages() { (status - 1) / 2 } else { status % self.stages() };
                text += &format!(" {}", self.status(parent));
            }
            text.push('\n');
        }
        for rule in rules {
            text += &format!("rule={}", rule.head);
            let units = rule.units.iter().map(|unit| match unit {
                Unit::One(leaf) => leaf.text.clone(),
                Unit::Either(first, second) => format!("({} or {})", first.text, second.text),
            });
            text += &units.collect::<Vec<_>>().join(" and ");
            text.push('\n');
        }
        text + &format!("end={}\n", rules.len())
    }

    /// The fields an event carries: all of them, each event from another one on.
    fn carried(&self, event: usize) -> impl Iterator<Item = usize> {
        let fields = self.fields;
        (0..fields).map(move |place| (place + event) % fields)
    }

    fn card(&self, model: &str) -> String {
        let mut text = format!("case={model}\n");
        for field in 0..self.fields {
            text += &format!("{}=-100000000\n", field_name(field));
        }
        for status in 0..self.statuses {
            text += &format!("{}=no\n", self.status(status));
        }
        text + &format!("end={}\n", self.fields + self.statuses)
    }

    fn event(&self) -> String {
        let mut text = event_name(0);
        for field in self.carried(0) {
            let value = if field < self.missing { "?" } else { "-100000000" };
            text += &format!(" {}={value}", field_name(field));
        }
        text + "\n"
    }
}

fn field_name(index: usize) -> String {
    format!("fieldnumbr{index:02}")
}

fn event_name(index: usize) -> String {
    format!("eventnumbr{index:02}")
}

/// Adds so many bytes (an even number) of nots in pairs and groups around the leaves, as far as the nesting allows.
fn fill(rules: &mut [RuleDraft], mut missing: usize) {
    let mut leaves: Vec<&mut Leaf> = vec![];
    for unit in rules.iter_mut().flat_map(|rule| &mut rule.units) {
        match unit {
            Unit::One(leaf) => leaves.push(leaf),
            Unit::Either(first, second) => leaves.extend([first, second]),
        }
    }
    for leaf in &mut leaves {
        while missing >= 8 && leaf.depth + 2 <= 8 {
            leaf.text = format!("not not {}", leaf.text);
            leaf.depth += 2;
            missing -= 8;
        }
    }
    for leaf in &mut leaves {
        while missing >= 2 && leaf.depth < 8 {
            leaf.text = format!("({})", leaf.text);
            leaf.depth += 1;
            missing -= 2;
        }
    }
}
