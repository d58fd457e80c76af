//! Sheets with long circles, with circles of closings, and with several circles that meet or wait for each other.

use crate::{
    generate::{
        draft::{Draft, SMALL, Size},
        random::Random,
    },
    papers::Papers,
};

pub fn circles(random: &mut Random) -> Papers {
    let mut draft = match random.below(4) {
        0 => one_ring(random),
        1 => closings(random),
        _ => several(random),
    };
    if random.chance(3) {
        random.shuffle(&mut draft.rules);
    }
    draft.rules.truncate(128);
    draft.papers(random)
}

/// So many statuses that stand alone: all edges come from the rules.
fn alone(random: &mut Random, count: usize) -> Draft {
    let stages = random.between(0, count);
    let size = Size { stages: (stages, stages), miles: (count - stages, count - stages), rules: (0, 0), ..SMALL };
    let mut draft = Draft::draw(random, &size);
    draft.statuses.iter_mut().for_each(|status| status.parent = None);
    draft
}

/// A rule for an edge: a trigger or a condition; the condition gives another edge beside it.
fn edge(random: &mut Random, draft: &Draft, from: usize, to: usize) -> String {
    let target = draft.node(to);
    let read = &draft.statuses[from / 2].name;
    match random.below(8) {
        0 => format!("{target} if {read}"),
        1 => format!("{target} on {} if not {read}", draft.node(from)),
        _ => format!("{target} on {}", draft.node(from)),
    }
}

/// A ring through some nodes, or through all; most often by triggers alone, which leave it as long as it is.
fn one_ring(random: &mut Random) -> Draft {
    let count = random.pick(&[4, 8, 16, 32, 32]);
    let mut draft = alone(random, count);
    let mut nodes: Vec<usize> = (0..2 * draft.statuses.len()).collect();
    if random.chance(2) {
        random.shuffle(&mut nodes);
    }
    if random.chance(2) {
        nodes.truncate(random.between(1, nodes.len()));
    }
    let plain = random.percent(80);
    for (index, &from) in nodes.iter().enumerate() {
        let to = nodes[(index + 1) % nodes.len()];
        let rule =
            if plain { format!("{} on {}", draft.node(to), draft.node(from)) } else { edge(random, &draft, from, to) };
        draft.rules.push(rule);
    }
    draft
}

/// Stages one in the other, and a rule that closes an outer one on the fall of an inner one. Some of the closings are
/// rules too, told instead of the child's line.
fn closings(random: &mut Random) -> Draft {
    let stages = random.pick(&[2, 3, 5, 12, 31]);
    let size = Size { stages: (stages, stages), miles: (0, 1), rules: (0, 3), ..SMALL };
    let mut draft = Draft::draw(random, &size);
    let deep = random.percent(70);
    for stage in 1..stages {
        draft.statuses[stage].parent = Some(if deep { stage - 1 } else { random.below(stage) });
    }
    let inner = if deep { stages - 1 } else { random.between(1, stages - 1) };
    let fall = |stage: usize| 2 * stage + 1;
    for stage in 1..stages {
        if random.chance(6) {
            let parent = draft.statuses[stage].parent.unwrap_or(0);
            draft.rules.push(edge(random, &draft, fall(parent), fall(stage)));
        }
    }
    draft.rules.push(format!("{} on {}", draft.node(fall(0)), draft.node(fall(inner))));
    draft
}

/// Rings that share no node, or share some, and edges between them by chance; nodes that wait for a ring.
fn several(random: &mut Random) -> Draft {
    let mut draft = if random.chance(3) {
        Draft::draw(random, &Size { stages: (2, 6), ..SMALL })
    } else {
        let statuses = random.pick(&[3, 6, 12, 20]);
        alone(random, statuses)
    };
    let count = 2 * draft.statuses.len();
    for _ in 0..random.between(2, 4) {
        let length = random.pick(&[1, 2, 2, 3, 5, 9]).min(count);
        let mut nodes: Vec<usize> = (0..count).collect();
        random.shuffle(&mut nodes);
        for index in 0..length {
            draft.rules.push(edge(random, &draft, nodes[index], nodes[(index + 1) % length]));
        }
    }
    for _ in 0..random.below(6) {
        let (from, to) = (random.below(count), random.below(count));
        draft.rules.push(edge(random, &draft, from, to));
    }
    draft
}
