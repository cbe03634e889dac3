//! What a step reports: its answer, its messages, its marks.

use crate::refusal::Refusal;
use crate::seats::SeatSet;

/// What the desk says, with its own particulars.
#[derive(Clone, Copy, Debug, PartialEq, Eq)]
pub enum Notice {
    Granted { priority: u8 },
    Taken { seat: usize, sequence: u16 },
    Deny { cause: u16 },
    Idle { sequence: u16 },
    Revoke { cause: u16 },
    Info { place: u8, priority: u8 },
}

/// What is said, and the seats it goes to.
#[derive(Clone, Copy, Debug, PartialEq, Eq)]
pub struct Posting {
    pub notice: Notice,
    pub to: SeatSet,
}

/// How the floor came to be given.
#[derive(Clone, Copy, Debug, PartialEq, Eq)]
pub enum How {
    Directly,
    OutOfTheLine,
}

/// The report of one step.
#[derive(Clone, Debug, PartialEq, Eq)]
pub struct Report {
    pub answer: Result<(), Refusal>,
    /// Two at most, in the order in which they are sent.
    pub messages: Vec<Posting>,
    pub placed: Option<usize>,
    pub struck_off: SeatSet,
    pub ended: Option<usize>,
    pub given: Option<(usize, How)>,
}

impl Report {
    /// Done, with nothing sent and no mark.
    pub fn done() -> Report {
        Report {
            answer: Ok(()),
            messages: Vec::new(),
            placed: None,
            struck_off: SeatSet::NONE,
            ended: None,
            given: None,
        }
    }

    pub fn refused(refusal: Refusal) -> Report {
        Report {
            answer: Err(refusal),
            ..Report::done()
        }
    }

    /// The same report with one more message.
    pub fn telling(mut self, to: SeatSet, notice: Notice) -> Report {
        self.messages.push(Posting { notice, to });
        self
    }

    /// The number of the answer, 0 for done.
    pub fn number(&self) -> u8 {
        self.answer.map_or_else(Refusal::number, |()| 0)
    }
}
