//! The circle of a sheet that has one, found in the closure of its graph.

use std::iter::successors;

use crate::{
    graph::{Node, cyclic, earlier, edges, rule_sources},
    sheet::Sheet,
};

/// An edge as it is told.
#[derive(Clone, Copy, Debug, PartialEq, Eq)]
pub struct Edge {
    pub from: Node,
    pub to: Node,
    /// The first rule line that gives it, or the `stage=` line of the child that closes.
    pub line: usize,
}

/// The circle that is told, in the direction of its edges; None if no path leads from a node to itself.
pub fn circle(sheet: &Sheet) -> Option<Vec<Edge>> {
    let sources = edges(sheet);
    let left = left(&sources);
    let walk: Vec<usize> =
        successors(lowest(left), |&here| lowest(sources[here] & left)).take(2 * sources.len()).collect();
    // After so many steps as there are nodes it goes round, and so many more show all of the circle.
    let round = walk.get(sources.len()..)?.iter().fold(0u64, |set, &node| set | 1 << node);
    let entered = walk.iter().position(|&node| round >> node & 1 == 1)?;
    let once_round = &walk[entered..=entered + round.count_ones() as usize];
    Some(once_round.windows(2).rev().map(|step| edge(sheet, step[1], step[0])).collect())
}

/// The nodes that are never free: a path leads to them from a node on a circle.
fn left(sources: &[u64]) -> u64 {
    let earlier = earlier(sources);
    let on_circles = cyclic(&earlier);
    (0..earlier.len()).filter(|&node| earlier[node] & on_circles != 0).fold(0, |set, node| set | 1 << node)
}

fn lowest(nodes: u64) -> Option<usize> {
    (nodes != 0).then(|| nodes.trailing_zeros() as usize)
}

fn edge(sheet: &Sheet, from: usize, to: usize) -> Edge {
    let target = Node::of_index(to);
    let mut rules = sheet.rules.iter().filter(|rule| (rule.change, rule.status) == (target.change, target.status));
    let given = rules.find(|rule| rule_sources(sheet, rule) >> from & 1 == 1).map(|rule| rule.line);
    let line = given.unwrap_or(sheet.names.statuses[target.status].line);
    Edge { from: Node::of_index(from), to: target, line }
}
