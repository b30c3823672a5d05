//! Children that are not at or above their parent, of which request E4 refuses some. Each reason has to
//! be met.

use super::tally::Tally;
use crate::answer::Answer;
use crate::reference;
use crate::reference::image::{Image, Node, State, FALL, IF, SEQUENCE};

/// A child that is not at or above its parent.
pub struct Low {
    pub child: u8,
    pub parent: u8,
    /// The lowest-numbered child.
    is_default: bool,
    is_only: bool,
    /// Not below its parent either.
    is_beside: bool,
    /// The falls in its parent's body.
    falls: Vec<Fall>,
}

/// A fall, by what stands around it.
#[derive(Clone, Copy, Default)]
struct Fall {
    in_first_branch: bool,
    in_second_branch: bool,
    is_behind: bool,
}

/// Why an image was accepted, or refused by 9.
pub fn note_children(tally: &mut Tally, bytes: &[u8], answer: Answer) {
    if !matches!(answer.number, 0 | 9) {
        return;
    }
    let image = Image::open(bytes).expect("an image with good sections");
    if image.states().any(|state| state.count > 0) {
        // Of these `parameters` has the reasons.
        return;
    }
    let low = low_children(&image);
    if answer.number == 0 {
        note_accepted(tally, &low);
    } else {
        note_refused(tally, &low, answer.place);
    }
}

/// The next cycle from these areas comes down from a parent to a child that is not at or above it.
pub fn note_walk(tally: &mut Tally, bytes: &[u8], registers: &[u8], targets: &[u8]) {
    let low = low_children(&Image::open(bytes).expect("an accepted image"));
    let comes_down = || {
        let walk = reference::walk(bytes, registers, targets).expect("an accepted run");
        let is_low = |pair: &[u8]| low.iter().any(|low| pair == [low.parent, low.child]);
        walk.windows(2).any(is_low)
    };
    tally.note(
        "accepted, a walk to a low child",
        !low.is_empty() && comes_down(),
    );
}

fn note_accepted(tally: &mut Tally, low: &[Low]) {
    let mut note = |reason, is_so: fn(&Low) -> bool| tally.note(reason, low.iter().any(is_so));
    note("accepted, a spare child below its parent", |low| {
        low.is_spare() && !low.is_beside
    });
    note("accepted, a spare child beside its parent", |low| {
        low.is_spare() && low.is_beside
    });
    note("accepted, a low default child, no fall", |low| {
        low.is_default && !low.is_only && low.falls.is_empty()
    });
    note("accepted, a low only child, no fall", |low| {
        low.is_only && low.falls.is_empty()
    });
    note("accepted, a low child not the default, no fall", |low| {
        !low.is_default && low.falls.is_empty()
    });
}

fn note_refused(tally: &mut Tally, low: &[Low], place: usize) {
    let is_charged = |low: &&Low| usize::from(low.child) == place && low.is_entered();
    let charged = low.iter().find(is_charged);
    tally.note("9 at a default child", charged.is_some());
    let Some(charged) = charged else {
        return;
    };
    tally.note("9 at a child beside its parent", charged.is_beside);
    for (reason, stands_so) in FALLS {
        let one = matches!(charged.falls[..], [fall] if stands_so(fall));
        tally.note(reason, one);
    }
    let crossed = |other: &Low| {
        other.is_entered() && other.child > charged.child && other.parent < charged.parent
    };
    tally.note(
        "9 at the lower child, of the higher parent",
        low.iter().any(crossed),
    );
    let passed = |other: &Low| other.is_spare() && other.child < charged.child;
    tally.note("9 behind a spare low child", low.iter().any(passed));
}

/// A reason, and whether the only fall of the parent stands so.
type Stand = (&'static str, fn(Fall) -> bool);

const FALLS: [Stand; 3] = [
    ("9 by one fall, in a first branch", |fall| {
        fall.in_first_branch
    }),
    ("9 by one fall, in a second branch", |fall| {
        fall.in_second_branch
    }),
    ("9 by one fall, behind a command", |fall| fall.is_behind),
];

impl Low {
    fn is_entered(&self) -> bool {
        self.is_default && !self.falls.is_empty()
    }

    /// Beside a default child to which its parent falls.
    pub fn is_spare(&self) -> bool {
        !self.is_default && !self.falls.is_empty()
    }
}

/// In the order of their numbers; none in a design with parameters. Expects an image that passes the
/// checks before 9.
pub fn low_children(image: &Image) -> Vec<Low> {
    let rows: Vec<u16> = image.rows().collect();
    let states: Vec<State> = image.states().collect();
    let commands: Vec<Node> = image.commands().collect();
    let flows = |from: u8, to: u8| rows[usize::from(from)] >> to & 1 == 1;
    if states.iter().any(|state| state.count > 0) {
        // What is low then depends on the choice of labels.
        return Vec::new();
    }
    let mut low = Vec::new();
    for (child, state) in states.iter().enumerate().skip(1) {
        let parent = &states[usize::from(state.parent)];
        if flows(parent.label, state.label) {
            continue;
        }
        let is_sibling = |&other: &usize| other != child && states[other].parent == state.parent;
        let mut siblings = (1..states.len()).filter(is_sibling);
        let lowest = siblings.next();
        low.push(Low {
            child: child as u8,
            parent: state.parent,
            is_default: lowest.is_none_or(|lowest| child < lowest),
            is_only: lowest.is_none(),
            is_beside: !flows(state.label, parent.label),
            falls: falls(&commands, parent.command, Fall::default()),
        });
    }
    low
}

/// The falls below a command that transfers, around which stands what is said of the one given.
fn falls(commands: &[Node], command: u16, around: Fall) -> Vec<Fall> {
    let node = commands[usize::from(command)];
    match node.kind {
        FALL => vec![around],
        SEQUENCE => {
            let is_behind = true;
            falls(
                commands,
                node.b,
                Fall {
                    is_behind,
                    ..around
                },
            )
        }
        IF => {
            let first = Fall {
                in_first_branch: true,
                ..around
            };
            let second = Fall {
                in_second_branch: true,
                ..around
            };
            [
                falls(commands, node.b, first),
                falls(commands, node.c, second),
            ]
            .concat()
        }
        _ => Vec::new(),
    }
}
