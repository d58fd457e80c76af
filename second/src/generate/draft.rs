//! Sheets, cards and event lines in order, as they are drawn before anything is damaged.

use crate::{
    generate::random::Random,
    papers::Papers,
    piece::{LEAST, MOST},
};

/// How many of each thing a draft may have.
#[derive(Clone, Debug)]
pub struct Size {
    pub fields: (usize, usize),
    pub events: (usize, usize),
    pub stages: (usize, usize),
    pub miles: (usize, usize),
    pub rules: (usize, usize),
    /// Leaves of all conditions together.
    pub leaves: usize,
}

pub const TINY: Size = Size { fields: (0, 1), events: (0, 2), stages: (0, 2), miles: (0, 1), rules: (0, 3), leaves: 6 };
pub const SMALL: Size =
    Size { fields: (0, 4), events: (1, 3), stages: (0, 4), miles: (0, 4), rules: (0, 12), leaves: 30 };
pub const MIDDLE: Size =
    Size { fields: (1, 8), events: (1, 6), stages: (1, 8), miles: (0, 8), rules: (4, 40), leaves: 120 };
pub const LARGE: Size =
    Size { fields: (4, 16), events: (4, 16), stages: (2, 16), miles: (2, 16), rules: (40, 128), leaves: 512 };

#[derive(Clone, Debug)]
pub struct Status {
    pub name: String,
    pub parent: Option<usize>,
}

/// A sheet in the making. Rules are texts without their key.
#[derive(Clone, Debug)]
pub struct Draft {
    pub model: String,
    pub fields: Vec<String>,
    pub events: Vec<(String, Vec<usize>)>,
    /// Stages first, then miles.
    pub statuses: Vec<Status>,
    pub stages: usize,
    pub rules: Vec<String>,
    /// Constants that comparisons and values are drawn around.
    pub constants: Vec<i64>,
    /// A number for `+x` at 2x and for `-x` at 2x+1; edges lead from smaller to greater.
    pub keys: Vec<u64>,
    pub leaves_left: usize,
}

impl Draft {
    pub fn draw(random: &mut Random, size: &Size) -> Draft {
        let mut draft = Draft {
            model: String::new(),
            fields: vec![],
            events: vec![],
            statuses: vec![],
            stages: 0,
            rules: vec![],
            constants: constants(random),
            keys: vec![],
            leaves_left: size.leaves,
        };
        for _ in 0..random.between(size.fields.0, size.fields.1) {
            let name = draft.new_name(random);
            draft.fields.push(name);
        }
        for _ in 0..random.between(size.events.0, size.events.1) {
            draft.add_event(random);
        }
        for _ in 0..random.between(size.stages.0, size.stages.1) {
            draft.add_stage(random);
        }
        for _ in 0..random.between(size.miles.0, size.miles.1) {
            draft.add_mile(random);
        }
        draft.model = if random.chance(6) { draft.some_name(random) } else { draft.new_name(random) };
        let reckless = random.chance(6);
        for _ in 0..random.between(size.rules.0, size.rules.1) {
            let careful = !(reckless && random.chance(3));
            draft.add_rule(random, careful);
        }
        draft
    }

    fn is_used(&self, name: &str) -> bool {
        self.fields.iter().any(|field| field == name)
            || self.events.iter().any(|(event, _)| event == name)
            || self.statuses.iter().any(|status| status.name == name)
    }

    pub fn new_name(&self, random: &mut Random) -> String {
        loop {
            let name = if random.chance(4) { self.some_name(random) } else { name(random) };
            let name = if random.chance(4) { beside(random, name) } else { name };
            if !self.is_used(&name) {
                return name;
            }
        }
    }

    fn some_name(&self, random: &mut Random) -> String {
        let mut names: Vec<String> = self.fields.clone();
        names.extend(self.events.iter().map(|event| event.0.clone()));
        names.extend(self.statuses.iter().map(|status| status.name.clone()));
        if names.is_empty() { name(random) } else { random.pick(&names) }
    }

    pub fn add_event(&mut self, random: &mut Random) {
        let name = self.new_name(random);
        let mut fields: Vec<usize> = (0..self.fields.len()).collect();
        random.shuffle(&mut fields);
        if !random.chance(8) {
            fields.truncate(random.between(0, 3));
        }
        self.events.push((name, fields));
    }

    pub fn add_stage(&mut self, random: &mut Random) {
        let parent = self.some_stage(random);
        self.add_status(random, parent, true);
        self.stages += 1;
    }

    pub fn add_mile(&mut self, random: &mut Random) {
        let home = self.some_stage(random);
        self.add_status(random, home, false);
    }

    fn some_stage(&self, random: &mut Random) -> Option<usize> {
        if self.stages == 0 || random.chance(2) { None } else { Some(random.below(self.stages)) }
    }

    fn add_status(&mut self, random: &mut Random, parent: Option<usize>, stage: bool) {
        let name = self.new_name(random);
        self.statuses.push(Status { name, parent });
        let mut draw = || random.draw() % 1_000;
        let (mut plus, mut minus) = (draw(), draw());
        if let Some(parent) = parent {
            let (parent_plus, parent_minus) = (self.keys[2 * parent], self.keys[2 * parent + 1]);
            if !random.chance(8) {
                plus += parent_plus.max(parent_minus) + 1;
            }
            if stage {
                minus += parent_minus + 1;
            }
        }
        self.keys.extend([plus, minus]);
    }

    /// Adds a rule, if the draft has what one needs. A careful one keeps the graph without cycles.
    pub fn add_rule(&mut self, random: &mut Random, careful: bool) {
        if self.statuses.is_empty() {
            return;
        }
        let mut target = random.below(2 * self.statuses.len());
        if target % 2 == 1 && random.chance(3) {
            target -= 1;
        }
        let below = |draft: &Draft, node: usize| !careful || draft.keys[node] < draft.keys[target];
        let status = target / 2;
        if let (0, Some(parent)) = (target % 2, self.statuses[status].parent)
            && !(below(self, 2 * parent) && below(self, 2 * parent + 1))
        {
            return;
        }
        let mut text = self.node(target);
        let nodes: Vec<usize> = (0..2 * self.statuses.len()).filter(|&node| below(self, node)).collect();
        let statuses: Vec<usize> =
            (0..self.statuses.len()).filter(|&read| below(self, 2 * read) && below(self, 2 * read + 1)).collect();
        let mut triggered = true;
        match random.below(10) {
            0..5 if !self.events.is_empty() => text += &format!(" on {}", random.pick(&self.events).0),
            5..8 if !nodes.is_empty() => text += &format!(" on {}", self.node(random.pick(&nodes))),
            _ => triggered = false,
        }
        let can_have_condition = self.leaves_left > 0 && !(self.fields.is_empty() && statuses.is_empty());
        if can_have_condition && (!triggered || random.percent(60)) {
            let condition = self.condition(random, 0, &statuses);
            text += &format!(" if {condition}");
        } else if !triggered {
            return;
        }
        self.rules.push(text);
    }

    /// `+x` or `-x` as a text.
    pub fn node(&self, node: usize) -> String {
        let sign = if node.is_multiple_of(2) { '+' } else { '-' };
        format!("{sign}{}", self.statuses[node / 2].name)
    }

    /// A condition over the fields and the statuses given; one of them is there, and a leaf is left.
    pub fn condition(&mut self, random: &mut Random, depth: usize, statuses: &[usize]) -> String {
        let mut text = self.and_list(random, depth, statuses);
        while self.leaves_left > 0 && random.chance(3) {
            text += &format!(" or {}", self.and_list(random, depth, statuses));
        }
        text
    }

    fn and_list(&mut self, random: &mut Random, depth: usize, statuses: &[usize]) -> String {
        let mut text = self.item(random, depth, statuses);
        while self.leaves_left > 0 && random.chance(3) {
            text += &format!(" and {}", self.item(random, depth, statuses));
        }
        text
    }

    fn item(&mut self, random: &mut Random, depth: usize, statuses: &[usize]) -> String {
        if depth == 0 && random.chance(60) {
            let leaf = self.leaf(random, statuses);
            return nested(random, &leaf, 8);
        }
        match random.below(9) {
            0 | 1 if depth < 8 => format!("not {}", self.item(random, depth + 1, statuses)),
            2 if depth < 8 => format!("({})", self.condition(random, depth + 1, statuses)),
            _ => self.leaf(random, statuses),
        }
    }

    fn leaf(&mut self, random: &mut Random, statuses: &[usize]) -> String {
        self.leaves_left = self.leaves_left.saturating_sub(1);
        let compare = statuses.is_empty() || (!self.fields.is_empty() && random.chance(2));
        if compare {
            let field = random.pick(&self.fields);
            format!("{field}{}{}", random.pick(&OPERATORS), self.near(random))
        } else {
            self.statuses[random.pick(statuses)].name.clone()
        }
    }

    /// A number at or beside one of the constants.
    fn near(&self, random: &mut Random) -> i64 {
        let constant = random.pick(&self.constants);
        (constant + random.below(3) as i64 - 1).clamp(LEAST, MOST)
    }

    fn value(&self, random: &mut Random) -> String {
        if random.percent(35) { "?".into() } else { self.near(random).to_string() }
    }

    pub fn sheet(&self) -> String {
        let mut text = format!("model={}\n", self.model);
        for field in &self.fields {
            text += &format!("field={field}\n");
        }
        for (event, fields) in &self.events {
            text += &format!("event={event}");
            for &field in fields {
                text += &format!(" {}", self.fields[field]);
            }
            text.push('\n');
        }
        for (index, status) in self.statuses.iter().enumerate() {
            let key = if index < self.stages { "stage" } else { "mile" };
            text += &format!("{key}={}", status.name);
            if let Some(parent) = status.parent {
                text += &format!(" {}", self.statuses[parent].name);
            }
            text.push('\n');
        }
        for rule in &self.rules {
            text += &format!("rule={rule}\n");
        }
        text + &format!("end={}\n", self.rules.len())
    }

    /// A card without orphans.
    pub fn card(&self, random: &mut Random) -> String {
        let usual = random.pick(&[10, 50, 90]);
        let mut yes: Vec<bool> = vec![];
        for (index, status) in self.statuses.iter().enumerate() {
            let may = index >= self.stages || status.parent.is_none_or(|parent| yes[parent]);
            yes.push(may && random.percent(usual));
        }
        self.card_of(random, &yes)
    }

    pub fn card_of(&self, random: &mut Random, yes: &[bool]) -> String {
        let mut text = format!("case={}\n", self.model);
        for field in &self.fields {
            text += &format!("{field}={}\n", self.value(random));
        }
        for (status, yes) in self.statuses.iter().zip(yes) {
            text += &format!("{}={}\n", status.name, if *yes { "yes" } else { "no" });
        }
        text + &format!("end={}\n", self.fields.len() + self.statuses.len())
    }

    pub fn event_line(&self, random: &mut Random) -> String {
        if self.events.is_empty() {
            return format!("{}\n", name(random));
        }
        let (event, fields) = random.pick(&self.events);
        let mut text = event;
        for field in fields {
            text += &format!(" {}={}", self.fields[field], self.value(random));
        }
        text + "\n"
    }

    pub fn papers(&self, random: &mut Random) -> Papers {
        Papers { sheet: self.sheet().into(), card: self.card(random).into(), event: self.event_line(random).into() }
    }
}

pub const OPERATORS: [&str; 5] = ["<", "<=", "=", ">=", ">"];

/// A leaf inside so many nots and groups.
pub fn nested(random: &mut Random, leaf: &str, depth: usize) -> String {
    (0..depth).fold(
        leaf.to_string(),
        |inner, _| {
            if random.chance(2) { format!("not {inner}") } else { format!("({inner})") }
        },
    )
}

/// Some well-formed name: short, of full length, or close to a word of the papers.
pub fn name(random: &mut Random) -> String {
    const CLOSE: [&str; 28] = [
        "ons", "ifs", "or1", "ands", "nots", "nothing", "ending", "end1", "yes", "no", "case", "model", "field",
        "event", "stage", "mile", "rule", "o", "i", "n", "e", "orandnot", "refused", "outlook", "always", "never",
        "open", "circle",
    ];
    const FIRST: &[u8] = b"abcdefghijklmnopqrstuvwxyz";
    const LATER: &[u8] = b"abcdefghijklmnopqrstuvwxyz0123456789";
    let length = match random.below(12) {
        0..5 => random.between(1, 2),
        5..8 => random.between(3, 8),
        8 | 9 => 12,
        10 => 11,
        _ => return random.pick(&CLOSE).to_string(),
    };
    let mut name = String::from(char::from(random.pick(FIRST)));
    while name.len() < length {
        name.push(char::from(random.pick(LATER)));
    }
    match name.as_str() {
        "on" | "if" | "or" | "and" | "not" | "end" => name + "x",
        _ => name,
    }
}

/// A name that differs little from another: longer or shorter by a byte at its end, or with another last byte.
fn beside(random: &mut Random, mut name: String) -> String {
    let last = random.pick(&['0', '9', 'a', 'z', '1', 'b']);
    if name.len() == 12 || (name.len() > 1 && random.chance(2)) {
        name.pop();
    }
    if name.len() == 11 || random.chance(2) {
        name.push(last);
    }
    match name.as_str() {
        "on" | "if" | "or" | "and" | "not" | "end" => name + "0",
        _ => name,
    }
}

fn constants(random: &mut Random) -> Vec<i64> {
    const USUAL: [i64; 12] = [0, 1, -1, 5, 10, 900, -30, 65_536, LEAST, MOST, LEAST + 1, MOST - 1];
    let count = random.between(1, 5);
    (0..count)
        .map(|_| match random.below(4) {
            0 => random.below(2_000_000_001) as i64 - 1_000_000_000,
            _ => random.pick(&USUAL),
        })
        .collect()
}
