//! Faults in the flow, of which request E7 shows the one read first, though another has a lower node.
//! Each two numbers have to be met, wherever the other can stand.

use self::Behind::{HigherState, SecondBranch, SecondPart};
use super::tally::Tally;
use crate::answer::Answer;
use crate::reference::flow_faults;
use crate::reference::image::{Image, IF, SEQUENCE};

/// Where a fault stands that is read after the one shown.
#[derive(Clone, Copy, PartialEq, Eq)]
enum Behind {
    SecondPart,
    SecondBranch,
    HigherState,
}

/// The number shown, that of a fault with a lower node, and where this one stands. In the first part
/// of a sequence there are no gotos and no falls, so these are never shown before its second.
const REASONS: [(&str, u32, u32, Behind); 21] = [
    ("10 before a lower 10, second part", 10, 10, SecondPart),
    ("10 before a lower 11, second part", 10, 11, SecondPart),
    ("10 before a lower 12, second part", 10, 12, SecondPart),
    ("10 before a lower 10, second branch", 10, 10, SecondBranch),
    ("10 before a lower 11, second branch", 10, 11, SecondBranch),
    ("10 before a lower 12, second branch", 10, 12, SecondBranch),
    ("11 before a lower 10, second branch", 11, 10, SecondBranch),
    ("11 before a lower 11, second branch", 11, 11, SecondBranch),
    ("11 before a lower 12, second branch", 11, 12, SecondBranch),
    ("12 before a lower 10, second branch", 12, 10, SecondBranch),
    ("12 before a lower 11, second branch", 12, 11, SecondBranch),
    ("12 before a lower 12, second branch", 12, 12, SecondBranch),
    ("10 before a lower 10, higher state", 10, 10, HigherState),
    ("10 before a lower 11, higher state", 10, 11, HigherState),
    ("10 before a lower 12, higher state", 10, 12, HigherState),
    ("11 before a lower 10, higher state", 11, 10, HigherState),
    ("11 before a lower 11, higher state", 11, 11, HigherState),
    ("11 before a lower 12, higher state", 11, 12, HigherState),
    ("12 before a lower 10, higher state", 12, 10, HigherState),
    ("12 before a lower 11, higher state", 12, 11, HigherState),
    ("12 before a lower 12, higher state", 12, 12, HigherState),
];

pub fn note_reading(tally: &mut Tally, bytes: &[u8], answer: Answer) {
    if !(10..=12).contains(&answer.number) {
        return;
    }
    let image = Image::open(bytes).expect("an image with good sections");
    let holders = Holders::of(&image);
    let mut lower = Vec::new();
    for fault in flow_faults(&image) {
        if fault.place != answer.place {
            let behind = holders.behind(answer.place, fault.place);
            let behind = behind.expect("a fault read after the one shown");
            if fault.place < answer.place {
                lower.push((fault.number, behind));
            }
        }
    }
    for (reason, shown, other, behind) in REASONS {
        let met = answer.number == shown && lower.contains(&(other, behind));
        tally.note(reason, met);
    }
}

/// For each command what holds it.
struct Holders(Vec<Holder>);

#[derive(Clone, Copy)]
struct Holder {
    /// A sequence or an if; for the command of a state the number of commands, as if one more held all
    /// bodies.
    owner: usize,
    /// What `owner` holds before it is read before it.
    side: usize,
    behind: Behind,
}

impl Holders {
    /// Expects nodes that are used exactly once.
    fn of(image: &Image) -> Holders {
        let commands = image.commands().len();
        let unheld = Holder {
            owner: commands,
            side: 0,
            behind: HigherState,
        };
        let mut holders = vec![unheld; commands];
        for (side, state) in image.states().enumerate() {
            holders[usize::from(state.command)].side = side;
        }
        for (owner, node) in image.commands().enumerate() {
            let (parts, behind) = match node.kind {
                SEQUENCE => ([node.a, node.b], SecondPart),
                IF => ([node.b, node.c], SecondBranch),
                _ => continue,
            };
            for (side, part) in parts.into_iter().enumerate() {
                holders[usize::from(part)] = Holder {
                    owner,
                    side,
                    behind,
                };
            }
        }
        Holders(holders)
    }

    /// Where the other stands if it is read after the first: owners have higher numbers, so the way up
    /// from both comes to the one that holds both.
    fn behind(&self, first: usize, other: usize) -> Option<Behind> {
        let (mut first, mut other) = (self.0[first], self.0[other]);
        while first.owner != other.owner {
            let lower = if first.owner < other.owner {
                &mut first
            } else {
                &mut other
            };
            *lower = self.0[lower.owner];
        }
        (first.side < other.side).then_some(first.behind)
    }
}
