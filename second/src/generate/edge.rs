//! Papers at the limits and one beyond them, cycles of every kind, and many parts.

use crate::{
    generate::{
        draft::{Draft, OPERATORS, SMALL, Size, TINY, nested},
        random::Random,
    },
    papers::Papers,
    piece::{LEAST, MOST},
};

/// One of the limits met exactly, or passed by one.
pub fn at_a_limit(random: &mut Random) -> Papers {
    let over = random.below(2);
    let exactly = |count: usize| (count + over, count + over);
    match random.below(9) {
        0 => Draft::draw(random, &Size { fields: exactly(16), ..SMALL }).papers(random),
        1 => Draft::draw(random, &Size { events: exactly(16), ..SMALL }).papers(random),
        2 => {
            let stages = random.pick(&[0, 1, 16, 31, 32, 32 + over]);
            let miles = 32 + over - stages;
            Draft::draw(random, &Size { stages: (stages, stages), miles: (miles, miles), ..SMALL }).papers(random)
        }
        3 => rules(random, 128 + over),
        4 => leaves(random, 512 + over),
        5 => nesting(random, 8 + over),
        6 => long_name(random, 12 + over),
        7 => all_fields(random),
        _ => range_end(random, over as i64),
    }
}

fn rules(random: &mut Random, count: usize) -> Papers {
    let mut draft = Draft::draw(random, &Size { stages: (1, 6), leaves: 400, ..SMALL });
    while draft.rules.len() < count {
        draft.add_rule(random, true);
        // Where no careful rule finds a place, one on an event does.
        if random.chance(4) {
            let root = format!("{} on {}", draft.node(random.below(2)), draft.events[0].0);
            draft.rules.push(root);
        }
    }
    draft.rules.truncate(count);
    draft.papers(random)
}

/// So many leaves, in one rule or in several.
fn leaves(random: &mut Random, count: usize) -> Papers {
    let mut draft = Draft::draw(random, &Size { fields: (1, 4), miles: (2, 4), rules: (0, 0), ..SMALL });
    // The last status reads the others; nothing else has a rule.
    let last = draft.statuses.len() - 1;
    let others: Vec<usize> = (0..last).collect();
    let mut left = count;
    while left > 0 {
        let here = if random.chance(3) { left } else { random.between(1, left) };
        let mut text = format!("{} if ", draft.node(2 * last + 1));
        for index in 0..here {
            draft.leaves_left = 1;
            let joint = if index == 0 { "" } else { random.pick(&[" and ", " or "]) };
            text += joint;
            let leaf = leaf_of(random, &draft, &others);
            text += &leaf;
        }
        draft.rules.push(text);
        left -= here;
        if draft.rules.len() == 127 {
            break;
        }
    }
    draft.papers(random)
}

fn leaf_of(random: &mut Random, draft: &Draft, statuses: &[usize]) -> String {
    if random.chance(2) {
        let constant = random.pick(&draft.constants);
        format!("{}{}{constant}", draft.fields[0], random.pick(&OPERATORS))
    } else {
        draft.statuses[random.pick(statuses)].name.clone()
    }
}

fn nesting(random: &mut Random, depth: usize) -> Papers {
    let mut draft = Draft::draw(random, &Size { fields: (1, 2), miles: (2, 3), ..TINY });
    let last = draft.statuses.len() - 1;
    let leaf = leaf_of(random, &draft, &[0]);
    let mut text = format!("{} if {}", draft.node(2 * last + 1), nested(random, &leaf, depth));
    if random.chance(2) {
        text += &format!(" or {}", nested(random, &leaf, 8));
    }
    draft.rules.push(text);
    draft.papers(random)
}

fn long_name(random: &mut Random, length: usize) -> Papers {
    let mut draft = Draft::draw(random, &Size { fields: (1, 2), stages: (1, 3), ..SMALL });
    draft.rules.clear();
    let long: String =
        (0..length).map(|at| if at == 0 { 'q' } else { random.pick(&['a', 'z', '0', '9', 'q']) }).collect();
    match random.below(4) {
        0 => draft.model = long,
        1 => draft.fields[0] = long,
        2 => draft.events[0].0 = long,
        _ => draft.statuses[0].name = long,
    }
    draft.papers(random)
}

/// An event that carries each of 16 fields.
fn all_fields(random: &mut Random) -> Papers {
    let mut draft = Draft::draw(random, &Size { fields: (16, 16), events: (1, 1), ..SMALL });
    draft.events[0].1 = (0..16).collect();
    random.shuffle(&mut draft.events[0].1);
    draft.papers(random)
}

/// Numbers at the ends of the range, or one outside, in a comparison, on the card or on the event line.
fn range_end(random: &mut Random, over: i64) -> Papers {
    let mut draft = Draft::draw(random, &Size { fields: (1, 2), events: (1, 2), miles: (1, 3), ..TINY });
    let sign = random.pick(&[1, -1]);
    let number = sign * (MOST + over);
    let place = random.below(3);
    if place == 0 {
        let text = format!("{} if {}{}{number}", draft.node(0), draft.fields[0], random.pick(&OPERATORS));
        draft.rules.push(text);
    }
    draft.events[0].1 = vec![0];
    let mut papers = draft.papers(random);
    let shown = |name: &str| format!("{name}={number}");
    if place == 1 {
        let field = &draft.fields[0];
        let card = String::from_utf8_lossy(&papers.card).into_owned();
        let lines = card.split_inclusive('\n').enumerate();
        papers.card = lines
            .map(|(index, line)| if index == 1 { shown(field) + "\n" } else { line.to_string() })
            .collect::<String>()
            .into();
    }
    if place == 2 {
        papers.event = format!("{} {}\n", draft.events[0].0, shown(&draft.fields[0])).into();
    }
    papers
}

/// A cycle, or nearly one.
pub fn cycle(random: &mut Random) -> Papers {
    let mut draft = Draft::draw(random, &Size { stages: (2, 5), miles: (1, 4), rules: (0, 6), ..SMALL });
    let count = draft.statuses.len();
    let some = random.below(count);
    let (plus, minus) = (draft.node(2 * some), draft.node(2 * some + 1));
    let name = draft.statuses[some].name.clone();
    let event = draft.events[0].0.clone();
    let rules: Vec<String> = match random.below(9) {
        0 => vec![format!("{plus} if {name}")],
        1 => vec![format!("{minus} if not ({name})")],
        2 => vec![format!("{plus} on {plus}")],
        3 => vec![format!("{minus} on {minus} if {name}")],
        4 => vec![format!("{plus} on {minus}"), format!("{minus} on {plus}")],
        5 => vec![format!("{plus} on {minus}"), format!("{minus} on {event}")],
        6 | 7 => match draft.statuses[some].parent {
            // A parent closed by its child's fall or rise; a home closed by its mile.
            Some(parent) => {
                let close = draft.node(2 * parent + 1);
                let read = &draft.statuses[some].name;
                match random.below(4) {
                    0 => vec![format!("{close} on {minus}")],
                    1 => vec![format!("{close} on {plus}"), format!("{plus} on {event}")],
                    2 => vec![format!("{close} on {plus}")],
                    _ => vec![format!("{close} if {read}"), format!("{plus} on {event}")],
                }
            }
            None => vec![format!("{plus} on {plus} if not {name}")],
        },
        _ => ring(random, &draft),
    };
    draft.rules.extend(rules);
    random.shuffle(&mut draft.rules);
    draft.papers(random)
}

/// Each node of a ring is caused by the next; sometimes one link is missing.
fn ring(random: &mut Random, draft: &Draft) -> Vec<String> {
    let mut nodes: Vec<usize> = (0..2 * draft.statuses.len()).collect();
    random.shuffle(&mut nodes);
    nodes.truncate(random.between(2, nodes.len()));
    let missing = if random.chance(3) { Some(random.below(nodes.len())) } else { None };
    (0..nodes.len())
        .filter(|index| Some(*index) != missing)
        .map(|index| format!("{} on {}", draft.node(nodes[index]), draft.node(nodes[(index + 1) % nodes.len()])))
        .collect()
}

/// Stages yes under a parent that is no.
pub fn orphans(random: &mut Random) -> Papers {
    let draft = Draft::draw(random, &Size { stages: (2, 8), ..SMALL });
    let yes: Vec<bool> = draft.statuses.iter().map(|_| random.chance(2)).collect();
    let mut papers = draft.papers(random);
    papers.card = draft.card_of(random, &yes).into();
    papers
}

/// Fields with given numbers of parts, all of them `?`.
pub fn parts(random: &mut Random) -> Papers {
    let few: [&[usize]; 8] =
        [&[1], &[2, 2, 2, 2, 2], &[3, 5, 7], &[32], &[2, 3, 4, 5], &[100], &[9, 9], &[4, 1, 4, 1, 4]];
    let at_most: [&[usize]; 8] =
        [&[16, 16, 16], &[8, 8, 8, 8], &[4; 6], &[2; 12], &[64, 64], &[63, 65], &[3, 3, 5, 7, 13], &[2, 23, 89]];
    let beyond: [&[usize]; 10] = [
        &[17, 241],
        &[64, 65],
        &[4, 5, 5, 41],
        &[2, 7, 293],
        &[8, 3, 3, 3, 19],
        &[2; 13],
        &[3; 8],
        // Products that are 0 in 32 and in 64 bits.
        &[16, 16, 16, 16, 16, 16, 16, 16],
        &[16; 16],
        &[25; 16],
    ];
    let counts = match random.below(8) {
        0 => random.pick(&at_most),
        1..5 => random.pick(&beyond),
        _ => random.pick(&few),
    };
    let mut draft = Draft::draw(
        random,
        &Size {
            fields: (counts.len(), counts.len()),
            events: (1, 1),
            stages: (1, 3),
            miles: (1, 5),
            rules: (0, 0),
            leaves: 0,
        },
    );
    let mut leaves = vec![];
    for (field, &count) in counts.iter().enumerate() {
        let name = draft.fields[field].clone();
        leaves.extend(cutting(random, &name, count - 1));
    }
    random.shuffle(&mut leaves);
    put_into_rules(random, &mut draft, &leaves);
    let mut papers = draft.papers(random);
    let mut card = format!("case={}\n", draft.model);
    for field in &draft.fields {
        card += &format!("{field}=?\n");
    }
    for status in &draft.statuses {
        card += &format!("{}=no\n", status.name);
    }
    card += &format!("end={}\n", draft.fields.len() + draft.statuses.len());
    papers.card = card.into();
    let (event, fields) = &draft.events[0];
    let mut line = event.clone();
    for &field in fields {
        line += &format!(" {}=?", draft.fields[field]);
    }
    papers.event = (line + "\n").into();
    papers
}

/// Comparisons with so many cuts in one row of numbers, some cut twice, some that cut nothing.
fn cutting(random: &mut Random, field: &str, count: usize) -> Vec<String> {
    let first = match random.below(4) {
        0 => LEAST + 1,
        1 => MOST + 1 - count as i64,
        _ => random.below(1_000) as i64 - 500,
    };
    let mut leaves = vec![];
    let mut cut = first;
    while cut < first + count as i64 {
        let left = first + count as i64 - cut;
        if left >= 2 && random.chance(3) {
            leaves.push(format!("{field}={cut}"));
            cut += 2;
            continue;
        }
        let ways = [format!("<{cut}"), format!(">={cut}"), format!("<={}", cut - 1), format!(">{}", cut - 1)];
        leaves.push(format!("{field}{}", random.pick(&ways)));
        if count < 20 && random.chance(6) {
            leaves.push(format!("{field}{}", random.pick(&ways)));
        }
        cut += 1;
    }
    if random.chance(4) {
        let nothing = [format!("<{LEAST}"), format!(">={LEAST}"), format!(">{MOST}"), format!("<={MOST}")];
        leaves.push(format!("{field}{}", random.pick(&nothing)));
    }
    if random.chance(8) && first == LEAST + 1 && count > 0 {
        leaves.push(format!("{field}={LEAST}"));
    }
    leaves
}

/// Spreads leaves over rules that read no status.
fn put_into_rules(random: &mut Random, draft: &mut Draft, leaves: &[String]) {
    let mut left = leaves;
    while !left.is_empty() {
        let here = random.between(1, left.len().min(12)).max(left.len() / 100);
        let (now, later) = left.split_at(here);
        left = later;
        let target = draft.node(2 * random.below(draft.statuses.len()));
        let mut text = format!("{target} if ");
        if random.chance(3) {
            text = format!("{target} on {} if ", draft.events[0].0);
        }
        for (index, leaf) in now.iter().enumerate() {
            text += if index == 0 { "" } else { random.pick(&[" and ", " or ", " and not ", " or not "]) };
            text += leaf;
        }
        draft.rules.push(text);
    }
}

/// A paper brought to its byte limit or one beyond, by bytes that do not belong there.
pub fn stretched(random: &mut Random, mut papers: Papers) -> Papers {
    let over = random.below(2);
    let byte = random.pick(b"x\n 0");
    match random.below(4) {
        0 => papers.sheet.resize(32_768 + over, byte),
        1 => papers.card.resize(1_024 + over, byte),
        2 => papers.event.resize(512 + over, byte),
        _ => {
            let others = papers.sheet.len() + papers.card.len();
            papers.event.resize((34_304 + over).saturating_sub(others), byte);
        }
    }
    papers
}
