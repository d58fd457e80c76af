//! Papers from a seed: in order, at the limits, and damaged in many ways. Case `index` of a seed is always the same.

mod circles;
mod damage;
mod draft;
mod edge;
mod random;

pub use random::Random;

use crate::{
    limits::{Listing, Shape},
    papers::Papers,
    refusal::Fault,
    sheet::Sheet,
};
use draft::{Draft, LARGE, MIDDLE, SMALL, TINY};

pub fn generate(seed: u64, index: u64) -> Papers {
    let random = &mut random_of(seed, index);
    let mut papers = drawn(random);
    let words = words(&papers);
    if let Some(line) = full_line(&papers)
        && random.chance(2)
    {
        damage::damage_line(random, &mut papers.sheet, line, &words);
    } else if random.percent(45) {
        let times = random.pick(&[1, 1, 1, 1, 2, 2, 3]);
        for _ in 0..times {
            let paper = match random.below(5) {
                0..3 => &mut papers.sheet,
                3 => &mut papers.card,
                _ => &mut papers.event,
            };
            damage::damage(random, paper, &words);
        }
    }
    if random.chance(60) { edge::stretched(random, papers) } else { papers }
}

/// Numbers by chance that belong to one case of one seed.
pub fn random_of(seed: u64, index: u64) -> Random {
    Random::new(seed.wrapping_mul(0x1_0000_01B3).wrapping_add(index))
}

fn drawn(random: &mut Random) -> Papers {
    match random.below(1_000) {
        0..180 => Draft::draw(random, &TINY).papers(random),
        180..720 => Draft::draw(random, &SMALL).papers(random),
        720..850 => Draft::draw(random, &MIDDLE).papers(random),
        850..856 => Draft::draw(random, &LARGE).papers(random),
        856..910 => edge::at_a_limit(random),
        910..935 => edge::cycle(random),
        935..960 => circles::circles(random),
        960..985 => edge::orphans(random),
        985..995 => edge::parts(random),
        _ => full_sheet(random),
    }
}

/// A sheet with everything at its limit and exactly 32,768 bytes, one less or one more; few combinations.
fn full_sheet(random: &mut Random) -> Papers {
    let missing = if random.chance(20) { 12 } else { random.below(6) };
    let listing = random.pick(&Listing::ALL);
    Shape { missing, listing, bytes: Some(32_767 + random.below(3)), ..Shape::FULL }.papers()
}

/// The line that is over a limit, if one is: what stands on it may be wrong in other ways too.
fn full_line(papers: &Papers) -> Option<usize> {
    let refusal = Sheet::read(&papers.sheet).err()?;
    (refusal.fault == Fault::Full).then_some(refusal.line)
}

/// The names in the papers, each once.
fn words(papers: &Papers) -> Vec<Vec<u8>> {
    let mut words: Vec<Vec<u8>> =
        damage::words_of(&papers.sheet).into_iter().map(|range| papers.sheet[range].to_vec()).collect();
    words.sort();
    words.dedup();
    words
}
