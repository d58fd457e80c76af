//! `compare [SEED] [COUNT]`: the library's C functions against the second implementation, on the document's examples
//! and on generated papers; prints the first difference and exits 1, or a summary and exits 0.

#[cfg(feature = "desk")]
mod programs;

use std::process::ExitCode;

use second::{
    Fault, Refusal,
    examples::{corner_examples, why_examples},
    generate::{generate, random_of},
    papers::Papers,
    statistic::{Request, Statistic},
    survey::{Answers, ENOUGH_CASES, check_by_book, from_arguments, say},
};

/// Entries or bytes behind the lent space, which must stay as they are.
const GUARD: usize = 32;
/// Number, paper, line, count (bytes of the card or entries of the list), tasks.
type Reply = [u64; 5];

fn main() -> ExitCode {
    from_arguments(compare)
}

fn compare(seed: u64, count: u64) -> ExitCode {
    match compare_all(seed, count) {
        Ok(()) => ExitCode::SUCCESS,
        Err(difference) => {
            say(&format!("{difference}\n"));
            ExitCode::FAILURE
        }
    }
}

fn compare_all(seed: u64, count: u64) -> Result<(), String> {
    say(&format!("{count} cases from seed {seed}\n"));
    let mut comparison = Comparison { statistic: Statistic::default(), calls: 0 };
    #[cfg(feature = "desk")]
    comparison.examples_of_programs()?;
    let corners = corner_examples().into_iter().map(|example| (example.name, example.papers));
    let whys = why_examples().into_iter().map(|example| (example.name.to_string(), example.papers));
    for (name, papers) in corners.chain(whys) {
        comparison.papers(&papers, 0).map_err(|difference| format!("example {name}: {difference}\n{papers}"))?;
    }
    // The examples are no part of the statistic.
    comparison.statistic = Statistic::default();
    for index in 0..count {
        let papers = generate(seed, index);
        let compared = comparison.papers(&papers, index);
        let checked = compared.and_then(|()| {
            check_by_book(&papers, &mut random_of(!seed, index))
                .map_err(|difference| format!("by the book: {difference}"))
        });
        checked.map_err(|difference| format!("seed {seed}, case {index}: {difference}\n{papers}"))?;
    }
    let (table, all_met) = comparison.statistic.table();
    say(&table);
    if !all_met && count >= ENOUGH_CASES {
        return Err("a number of a paper, a kind of reason or a length of circle was never met".into());
    }
    say(&format!("{count} cases from seed {seed}, {} calls, no difference\n", comparison.calls));
    Ok(())
}

struct Comparison {
    statistic: Statistic,
    calls: u64,
}

/// Sheet, card, event, the space lent for a list and the places of the reply.
type IntoList = fn(&[u8], &[u8], &[u8], &mut [u32], &mut [u64]) -> u64;

/// A request that gives a list, as the library has it.
struct ListDoor {
    request: Request,
    into: IntoList,
}

const OUTLOOK: ListDoor = ListDoor { request: Request::Outlook, into: reambodkin::outlook_into };
const WHY: ListDoor = ListDoor { request: Request::Why, into: reambodkin::why_into };

/// What stands in lent space before a call.
fn pattern(index: usize) -> u32 {
    (index as u32).wrapping_mul(2_654_435_761) ^ 0xA5C3_96F1
}

fn byte_pattern(index: usize) -> u8 {
    (pattern(index) >> 9) as u8
}

/// Sizes around what is needed.
fn rooms(need: Option<usize>, more: usize) -> Vec<usize> {
    match need {
        None => vec![0, 1, more],
        Some(need) => {
            let mut rooms = vec![0, need.saturating_sub(1), need, need + 1, more.max(need + 7)];
            rooms.dedup();
            rooms
        }
    }
}

impl Comparison {
    /// All requests over the papers of a case.
    fn papers(&mut self, papers: &Papers, case: u64) -> Result<(), String> {
        let answers = Answers::of(papers);
        answers.count(papers, &mut self.statistic);
        for room in rooms(answers.step.as_ref().ok().map(|next| next.card.len()), 1_024) {
            self.step(papers, room)?;
        }
        for room in rooms(answers.outlook.as_ref().ok().map(Vec::len), 64) {
            self.list(&OUTLOOK, papers, &answers.outlook, room)?;
        }
        for room in rooms(answers.why.as_ref().ok().map(Vec::len), 160) {
            self.list(&WHY, papers, &answers.why, room)?;
        }
        self.programs(papers, &answers, case)
    }

    /// Without the feature the library's programs are not asked.
    #[cfg(not(feature = "desk"))]
    fn programs(&mut self, _: &Papers, _: &Answers, _: u64) -> Result<(), String> {
        Ok(())
    }

    fn step(&mut self, papers: &Papers, room: usize) -> Result<(), String> {
        let mut expected_space: Vec<u8> = (0..room + GUARD).map(byte_pattern).collect();
        let mut space = expected_space.clone();
        let expected = match second::step(&papers.sheet, &papers.card, &papers.event, room) {
            Ok(next) => {
                expected_space[..next.card.len()].copy_from_slice(&next.card);
                [0, 0, 0, next.card.len() as u64, u64::from(next.tasks)]
            }
            Err(refusal) => self.refusal(Request::Step, refusal),
        };
        self.told(expected, |reply| {
            reambodkin::step_into(&papers.sheet, &papers.card, &papers.event, &mut space[..room], reply)
        })
        .map_err(|difference| format!("step with {room} bytes lent, {difference}"))?;
        match difference(&space, &expected_space) {
            None => Ok(()),
            Some(at) => Err(format!(
                "step with {room} bytes lent, space from byte {at}: library \"{}\", second \"{}\"",
                space[at..].escape_ascii(),
                expected_space[at..].escape_ascii()
            )),
        }
    }

    /// A list in lent space; `whole` is the second's answer with room for everything.
    fn list(
        &mut self,
        door: &ListDoor,
        papers: &Papers,
        whole: &Result<Vec<u32>, Refusal>,
        room: usize,
    ) -> Result<(), String> {
        let name = door.request.name();
        let mut expected_space: Vec<u32> = (0..room + GUARD).map(pattern).collect();
        let mut space = expected_space.clone();
        let expected = match whole {
            Ok(list) if list.len() > room => self.refusal(door.request, Refusal::of_request(Fault::Room)),
            Ok(list) => {
                expected_space[..list.len()].copy_from_slice(list);
                [0, 0, 0, list.len() as u64, 0]
            }
            Err(refusal) => self.refusal(door.request, *refusal),
        };
        self.told(expected, |reply| (door.into)(&papers.sheet, &papers.card, &papers.event, &mut space[..room], reply))
            .map_err(|difference| format!("{name} with {room} entries lent, {difference}"))?;
        match difference(&space, &expected_space) {
            None => Ok(()),
            Some(at) => Err(format!(
                "{name} with {room} entries lent, entry {at}: library {}, second {}",
                space[at], expected_space[at]
            )),
        }
    }

    /// The reply in five places and in more; now and then in too few, which must leave all as it is.
    fn told(&mut self, expected: Reply, mut call: impl FnMut(&mut [u64]) -> u64) -> Result<(), String> {
        self.calls += 1;
        let places = (self.calls % 8) as usize;
        let before: Vec<u64> = (0..8).map(|index| u64::from(pattern(index)) << 16).collect();
        if places < 5 {
            let mut reply = before.clone();
            let number = call(&mut reply[..places]);
            if number != Fault::Room as u64 || reply != before {
                return Err(format!("reply with {places} places: library {number}, {reply:?}"));
            }
        }
        let mut after = before.clone();
        after[..5].copy_from_slice(&expected);
        let mut reply = before;
        let number = call(&mut reply[..places.max(5)]);
        if number != expected[0] || reply != after {
            return Err(format!(
                "reply with {} places: library {number}, {reply:?}, second {expected:?}",
                places.max(5)
            ));
        }
        Ok(())
    }

    fn refusal(&mut self, request: Request, refusal: Refusal) -> Reply {
        if refusal.fault == Fault::Room {
            self.statistic.refused(request, refusal);
        }
        let [number, paper, line] = refusal.numbers();
        [number, paper, line, 0, 0]
    }
}

fn difference<T: PartialEq>(first: &[T], second: &[T]) -> Option<usize> {
    first.iter().zip(second).position(|(first, second)| first != second)
}
