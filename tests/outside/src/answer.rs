//! The answer of every call, laid out as the C interface has it.

use std::fmt;

#[repr(C)]
#[derive(Clone, Copy, Debug, PartialEq, Eq)]
pub struct Answer {
    /// 0: accepted; otherwise the refusal's number in documents 01 and 02.
    pub number: u32,
    /// The offending label, register, state, node or record; an expression is 1,024 plus its number.
    pub place: usize,
    /// The cycles done by a run, the records superseded in a replay, the length told of an area, or that of a
    /// pruned image or a filing form; 0 otherwise.
    pub count: usize,
}

impl Answer {
    pub const fn accepted(count: usize) -> Answer {
        Answer {
            number: 0,
            place: 0,
            count,
        }
    }

    pub const fn refused(number: u32, place: usize) -> Answer {
        Answer {
            number,
            place,
            count: 0,
        }
    }
}

impl fmt::Display for Answer {
    fn fmt(&self, f: &mut fmt::Formatter) -> fmt::Result {
        write!(
            f,
            "number {} place {} count {}",
            self.number, self.place, self.count
        )
    }
}

/// Which of two lent images is handed back, laid out as the C interface has it: request E12.
#[repr(C)]
#[derive(Clone, Copy, Debug, PartialEq, Eq)]
pub struct Which {
    /// 0: a part of the first image; 1: of the second.
    pub second: u32,
    /// From the image's start, so many bytes: all of them, or none.
    pub len: usize,
}

impl Which {
    /// An empty part of the first.
    pub const REFUSED: Which = Which { second: 0, len: 0 };
}

impl fmt::Display for Which {
    fn fmt(&self, f: &mut fmt::Formatter) -> fmt::Result {
        write!(f, "second {} len {}", self.second, self.len)
    }
}
