//! Refusals: what was wrong, in which paper, in which line.

/// The numbers of the table of refusals.
#[derive(Clone, Copy, Debug, PartialEq, Eq, PartialOrd, Ord)]
pub enum Fault {
    Long = 1,
    Line = 2,
    Name = 3,
    Number = 4,
    Cond = 5,
    Full = 6,
    Cycle = 7,
    Orphan = 8,
    Room = 9,
    Many = 10,
}

#[derive(Clone, Copy, Debug, PartialEq, Eq, PartialOrd, Ord)]
pub enum Paper {
    None = 0,
    Sheet = 1,
    Card = 2,
    Event = 3,
}

#[derive(Clone, Copy, Debug, PartialEq, Eq, PartialOrd, Ord)]
pub struct Refusal {
    pub fault: Fault,
    pub paper: Paper,
    pub line: usize,
}

impl Refusal {
    /// Of a sheet whose rules depend on each other in a circle.
    pub const CYCLE: Refusal = Refusal { fault: Fault::Cycle, paper: Paper::Sheet, line: 0 };

    /// A refusal that concerns no paper and no line.
    pub fn of_request(fault: Fault) -> Refusal {
        Refusal { fault, paper: Paper::None, line: 0 }
    }

    /// Number, paper and line as they are told.
    pub fn numbers(self) -> [u64; 3] {
        [self.fault as u64, self.paper as u64, self.line as u64]
    }
}
