//! The outlook: every pattern that some filling gives.

use std::collections::BTreeSet;

use crate::{
    condition::Comparison,
    piece::{LEAST, MOST},
    step::{Case, Run},
};

pub const COMBINATIONS: u64 = 4_096;

/// The patterns, ascending; None if the parts are too many.
pub fn patterns(case: &Case) -> Option<Vec<u32>> {
    let comparisons = case.sheet.comparisons();
    let mut numbers = case.numbers();
    let missing: Vec<usize> = (0..numbers.len()).filter(|&field| numbers[field].is_none()).collect();
    let highest: Vec<Vec<i64>> = missing.iter().map(|&field| highest_of_parts(&cuts(&comparisons, field))).collect();
    let product = highest.iter().fold(1, |product: u64, parts| product.saturating_mul(parts.len() as u64));
    if product > COMBINATIONS {
        return None;
    }
    let run = Run::new(case);
    let mut found = BTreeSet::new();
    let mut chosen = vec![0; missing.len()];
    loop {
        for (place, &field) in missing.iter().enumerate() {
            numbers[field] = Some(highest[place][chosen[place]]);
        }
        found.insert(run.statuses(&numbers));
        // The next combination: the last place that can go on does, those behind it start again.
        let Some(place) = (0..missing.len()).rev().find(|&place| chosen[place] + 1 < highest[place].len()) else {
            return Some(found.into_iter().collect());
        };
        chosen[place] += 1;
        chosen[place + 1..].fill(0);
    }
}

/// The cuts of a field: around each constant, the values where the comparison answers differently one below.
pub fn cuts(comparisons: &[Comparison], field: usize) -> BTreeSet<i64> {
    let mut cuts = BTreeSet::new();
    for comparison in comparisons.iter().filter(|comparison| comparison.field == field) {
        for v in [comparison.number, comparison.number + 1] {
            if (LEAST + 1..=MOST).contains(&v) && comparison.answer(v - 1) != comparison.answer(v) {
                cuts.insert(v);
            }
        }
    }
    cuts
}

/// The highest number of each part.
fn highest_of_parts(cuts: &BTreeSet<i64>) -> Vec<i64> {
    cuts.iter().map(|cut| cut - 1).chain([MOST]).collect()
}
