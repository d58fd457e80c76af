//! How often each refusal was met, by request, number and paper, each kind of reason, and circles of which length.

use std::collections::BTreeMap;

use crate::{
    circle::Edge,
    graph::{cyclic, earlier, edges},
    papers::Papers,
    refusal::{Fault, Paper, Refusal},
    sheet::Sheet,
    why::Kind,
};

#[derive(Clone, Copy, Debug, PartialEq, Eq, PartialOrd, Ord)]
pub enum Request {
    Step,
    Outlook,
    Why,
    Desk,
    ClerkWhy,
    ClerkCard,
    ClerkOutlook,
    ClerkCheck,
    ClerkBlank,
}

impl Request {
    const DOORS: [Request; 3] = [Request::Step, Request::Outlook, Request::Why];
    /// Those whose answer is what a program prints.
    pub const PRINTED: [Request; 6] = [
        Request::Desk,
        Request::ClerkWhy,
        Request::ClerkCard,
        Request::ClerkOutlook,
        Request::ClerkCheck,
        Request::ClerkBlank,
    ];

    fn all() -> impl Iterator<Item = Request> {
        Request::DOORS.into_iter().chain(Request::PRINTED)
    }

    /// The sheet alone is what it is over.
    pub fn is_of_sheet(self) -> bool {
        matches!(self, Request::ClerkCheck | Request::ClerkBlank)
    }

    /// What a program is given of the papers.
    pub fn input(self, papers: &Papers) -> Vec<u8> {
        if self.is_of_sheet() { papers.sheet.clone() } else { papers.joined() }
    }

    /// What a program prints; nothing for a door.
    pub fn print(self, input: &[u8]) -> Vec<u8> {
        match self {
            Request::Step | Request::Outlook | Request::Why => vec![],
            Request::Desk => crate::desk(input),
            Request::ClerkWhy => crate::clerk_why(input),
            Request::ClerkCard => crate::clerk_card(input),
            Request::ClerkOutlook => crate::clerk_outlook(input),
            Request::ClerkCheck => crate::clerk_check(input),
            Request::ClerkBlank => crate::clerk_blank(input),
        }
    }

    pub fn name(self) -> &'static str {
        match self {
            Request::Step => "step",
            Request::Outlook => "outlook",
            Request::Why => "why",
            Request::Desk => "desk",
            Request::ClerkWhy => "clerk why",
            Request::ClerkCard => "clerk card",
            Request::ClerkOutlook => "clerk outlook",
            Request::ClerkCheck => "clerk check",
            Request::ClerkBlank => "clerk blank",
        }
    }
}

type Answer = (u64, u64);

#[derive(Default)]
pub struct Statistic {
    met: BTreeMap<(Request, Answer), u64>,
    changed: u64,
    with_tasks: u64,
    several: u64,
    longest: usize,
    kinds: BTreeMap<Kind, u64>,
    most_reasons: usize,
    circles: Circles,
}

/// The circles that were told.
#[derive(Default)]
struct Circles {
    /// How many by their length.
    lengths: BTreeMap<usize, u64>,
    /// Those with the closing of a child that no rule line gives.
    with_closing: u64,
    /// Those of sheets with a node on another circle.
    with_others: u64,
}

/// Lengths of circles, from and to, of which each must be met.
const LENGTHS: [(usize, usize); 8] = [(1, 1), (2, 2), (3, 3), (4, 7), (8, 15), (16, 31), (32, 63), (64, 64)];

impl Circles {
    fn between(&self, (low, high): (usize, usize)) -> u64 {
        self.lengths.range(low..=high).map(|(_, count)| count).sum()
    }

    fn all_met(&self) -> bool {
        let met = LENGTHS.into_iter().all(|lengths| self.between(lengths) > 0);
        met && self.with_closing > 0 && self.with_others > 0
    }

    fn results(&self) -> String {
        let lengths = LENGTHS.map(|(low, high)| {
            let of = if low == high { low.to_string() } else { format!("{low} to {high}") };
            format!("{of}: {}", self.between((low, high)))
        });
        let lengths = lengths.join(", ");
        let (closing, others) = (self.with_closing, self.with_others);
        format!("circles by their edges: {lengths}; {closing} with the closing of a child, {others} beside others\n")
    }
}

impl Statistic {
    pub fn taken(&mut self, request: Request) {
        self.count(request, (0, 0));
    }

    pub fn refused(&mut self, request: Request, refusal: Refusal) {
        self.count(request, (refusal.fault as u64, refusal.paper as u64));
    }

    /// Counts what a taken step gave: whether a status changed, and which tasks were started.
    pub fn stepped(&mut self, changed: bool, tasks: u32) {
        self.changed += u64::from(changed);
        self.with_tasks += u64::from(tasks != 0);
    }

    pub fn listed(&mut self, patterns: usize) {
        self.several += u64::from(patterns > 1);
        self.longest = self.longest.max(patterns);
    }

    /// Counts the kinds of reasons told as numbers.
    pub fn told(&mut self, reasons: &[u32]) {
        for kind in reasons.iter().filter_map(|&reason| Kind::of_number(reason)) {
            *self.kinds.entry(kind).or_default() += 1;
        }
        self.most_reasons = self.most_reasons.max(reasons.len());
    }

    /// Counts the circle of a sheet.
    pub fn circle(&mut self, sheet: &Sheet, told: &[Edge]) {
        let circles = &mut self.circles;
        *circles.lengths.entry(told.len()).or_default() += 1;
        let by_rule = |edge: &Edge| sheet.rules.iter().any(|rule| rule.line == edge.line);
        circles.with_closing += u64::from(!told.iter().all(by_rule));
        let on_circles = cyclic(&earlier(&edges(sheet))).count_ones() as usize;
        circles.with_others += u64::from(on_circles > told.len());
    }

    /// What the taken requests gave.
    pub fn results(&self) -> String {
        let kinds = Kind::ALL.map(|kind| format!("{} {}", kind.words(), self.of_kind(kind))).join(", ");
        format!(
            "status changed in {} steps, tasks started in {}; {} outlooks with several patterns, the longest with {}\n\
             reasons: {kinds}; {} at most\n{}",
            self.changed,
            self.with_tasks,
            self.several,
            self.longest,
            self.most_reasons,
            self.circles.results()
        )
    }

    fn of_kind(&self, kind: Kind) -> u64 {
        self.kinds.get(&kind).copied().unwrap_or(0)
    }

    fn count(&mut self, request: Request, answer: Answer) {
        *self.met.entry((request, answer)).or_default() += 1;
    }

    fn of(&self, request: Request, answer: Answer) -> u64 {
        self.met.get(&(request, answer)).copied().unwrap_or(0)
    }

    /// A table of numbers and papers, with the kinds of reasons and the lengths of circles, and whether each was met by
    /// each request that can give it.
    pub fn table(&self) -> (String, bool) {
        let names: String = Request::all().map(|request| format!(" {:>13}", request.name())).collect();
        let mut table = format!("{:>6} {:>5}{names}\n", "number", "paper");
        let mut all_met = Kind::ALL.into_iter().all(|kind| self.of_kind(kind) > 0) && self.circles.all_met();
        for (number, paper) in answers() {
            let mut line = format!("{number:>6} {paper:>5}");
            for request in Request::all() {
                let count = self.of(request, (number, paper));
                if !can_give(request, (number, paper)) {
                    line += &format!(" {:>13}", "-");
                    all_met &= count == 0;
                } else {
                    line += &format!(" {count:>13}");
                    all_met &= count > 0;
                }
            }
            table += &line;
            table.push('\n');
        }
        (table + &self.results(), all_met)
    }
}

fn answers() -> Vec<Answer> {
    let (sheet, card, event) = (Paper::Sheet as u64, Paper::Card as u64, Paper::Event as u64);
    let mut answers = vec![(0, 0), (Fault::Long as u64, 0)];
    for fault in [Fault::Long, Fault::Line, Fault::Name, Fault::Number] {
        answers.extend([sheet, card, event].map(|paper| (fault as u64, paper)));
    }
    answers.extend([Fault::Cond, Fault::Full, Fault::Cycle].map(|fault| (fault as u64, sheet)));
    answers.push((Fault::Orphan as u64, card));
    answers.extend([Fault::Room, Fault::Many].map(|fault| (fault as u64, 0)));
    answers
}

fn can_give(request: Request, (number, paper): Answer) -> bool {
    let is_door = Request::DOORS.contains(&request);
    if request.is_of_sheet() {
        number == 0 || paper == Paper::Sheet as u64
    } else if (number, paper) == (Fault::Long as u64, 0) {
        !is_door
    } else if number == Fault::Room as u64 {
        is_door
    } else {
        // The programs show MANY as `outlook=refused`, the desk behind the card.
        number != Fault::Many as u64 || matches!(request, Request::Outlook | Request::Desk | Request::ClerkOutlook)
    }
}
