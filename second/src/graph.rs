//! The dependency graph, closed under paths, and a testing order made from the closure.

use crate::{
    condition::Condition,
    sheet::{Change, Rule, Sheet, Trigger},
};

/// `+x` or `-x`.
#[derive(Clone, Copy, Debug, PartialEq, Eq)]
pub struct Node {
    pub change: Change,
    pub status: usize,
}

impl Node {
    pub fn index(self) -> usize {
        2 * self.status + usize::from(self.change == Change::Fall)
    }

    pub fn of_index(index: usize) -> Node {
        let change = if index.is_multiple_of(2) { Change::Rise } else { Change::Fall };
        Node { change, status: index / 2 }
    }
}

fn both(status: usize) -> u64 {
    0b11 << (2 * status)
}

/// For each node the set of nodes that have an edge to it.
pub fn edges(sheet: &Sheet) -> Vec<u64> {
    let mut sources = vec![0; 2 * sheet.names.statuses.len()];
    for rule in &sheet.rules {
        let target = Node { change: rule.change, status: rule.status }.index();
        sources[target] |= rule_sources(sheet, rule);
    }
    let stages = &sheet.names.statuses[..sheet.names.stages];
    for (child, stage) in stages.iter().enumerate() {
        if let Some(parent) = stage.parent {
            let child = Node { change: Change::Fall, status: child }.index();
            let parent = Node { change: Change::Fall, status: parent }.index();
            sources[child] |= 1 << parent;
        }
    }
    sources
}

/// The nodes from which a rule has an edge to its consequent.
pub fn rule_sources(sheet: &Sheet, rule: &Rule) -> u64 {
    let mut sources = 0;
    if let Some(Trigger::Status(change, status)) = rule.trigger {
        sources |= 1 << Node { change, status }.index();
    }
    if let Some(condition) = &rule.condition {
        condition.leaves(&mut |leaf| {
            if let Condition::Status(status) = leaf {
                sources |= both(*status);
            }
        });
    }
    if let (Change::Rise, Some(parent)) = (rule.change, sheet.names.statuses[rule.status].parent) {
        sources |= both(parent);
    }
    sources
}

/// For each node the set of nodes from which a path leads to it.
pub fn earlier(edges: &[u64]) -> Vec<u64> {
    let mut earlier = edges.to_vec();
    for middle in 0..earlier.len() {
        let before_middle = earlier[middle];
        for sources in &mut earlier {
            if *sources >> middle & 1 == 1 {
                *sources |= before_middle;
            }
        }
    }
    earlier
}

/// The nodes from which a path leads to themselves.
pub fn cyclic(earlier: &[u64]) -> u64 {
    (0..earlier.len()).filter(|&node| earlier[node] >> node & 1 == 1).fold(0, |set, node| set | 1 << node)
}

/// A testing order, or None if some path leads from a node to itself.
pub fn testing_order(sheet: &Sheet) -> Option<Vec<Node>> {
    let earlier = earlier(&edges(sheet));
    if cyclic(&earlier) != 0 {
        return None;
    }
    // An edge's target has all that its source has before it, and the source too: more of them.
    let mut order: Vec<usize> = (0..earlier.len()).collect();
    order.sort_by_key(|&node| earlier[node].count_ones());
    Some(order.into_iter().map(Node::of_index).collect())
}
