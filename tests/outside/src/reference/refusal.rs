//! A refusal: its number and its place.

use crate::answer::Answer;

/// The numbers of all calls on designs. The comparison asks that each has been met.
pub const DESIGNS: &[u32] = &[
    1, 2, 3, 4, 5, 6, 7, 8, 9, 10, 11, 12, 13, 14, 15, 16, 17, 18, 19, 20, 21, 22, 23, 24,
];

/// Those of the calls on gate tables, in the order of judging but for lent bytes, which are judged last.
pub const GATES: &[u32] = &[25, 26, 14];

/// The numbers of the image checks in the order of judging; 10 to 12 are one pass, in reading order.
pub const IMAGE: &[u32] = &[1, 2, 3, 4, 5, 6, 7, 8, 16, 19, 9, 10, 11, 12];

#[derive(Clone, Copy, Debug, PartialEq, Eq)]
pub struct Refusal {
    pub number: u32,
    pub place: usize,
}

impl Refusal {
    pub const fn new(number: u32, place: usize) -> Refusal {
        Refusal { number, place }
    }
}

impl From<Refusal> for Answer {
    fn from(refusal: Refusal) -> Answer {
        Answer::refused(refusal.number, refusal.place)
    }
}
