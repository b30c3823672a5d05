//! The operands with which a run met the operations of request E3. Each sort of them has to be met.

use super::tally::Tally;
use crate::reference::image::{Image, DIVIDE, SHIFT, SIGNED_LESS};
use crate::reference::machine::{Machine, Watch};

/// A sort of operands: its name, and whether left and right are of it. In a name + has 0 in it, but a
/// divisor of 0 is a sort of its own.
type Sort = (&'static str, fn(i32, i32) -> bool);

/// All signs, and what a hurried reader of the request would give another result.
const SORTS: [(u8, &[Sort]); 3] = [(SIGNED_LESS, LESS), (SHIFT, SHIFTS), (DIVIDE, QUOTIENTS)];

const LESS: &[Sort] = &[
    ("+ < +", |left, right| left >= 0 && right >= 0),
    ("+ < -", |left, right| left >= 0 && right < 0),
    ("- < +", |left, right| left < 0 && right >= 0),
    ("- < -", |left, right| left < 0 && right < 0),
    ("- < the same", |left, right| left < 0 && left == right),
];

const SHIFTS: &[Sort] = &[
    ("+ >> +", |value, count| value >= 0 && count >= 0),
    ("+ >> -", |value, count| value >= 0 && count < 0),
    ("- >> +", |value, count| value < 0 && count >= 0),
    ("- >> -", |value, count| value < 0 && count < 0),
    ("- >> 31", |value, count| value < -1 && count == 31),
    ("- >> 32", |value, count| value < -1 && count == 32),
    ("- >> 33", |value, count| value < -1 && count == 33),
];

const QUOTIENTS: &[Sort] = &[
    ("+ / +", |left, right| left >= 0 && right > 0),
    ("+ / -", |left, right| left >= 0 && right < 0),
    ("- / +", |left, right| left < 0 && right > 0),
    ("- / -", |left, right| left < 0 && right < 0),
    ("+ / 0", |left, right| left >= 0 && right == 0),
    ("- / 0", |left, right| left < 0 && right == 0),
    ("+ / -, rounded", |left, right| {
        left >= 0 && right < -1 && left % right != 0
    }),
    ("- / +, rounded", |left, right| {
        left < 0 && right > 1 && left % right != 0
    }),
    ("lowest / -1", |left, right| left == i32::MIN && right == -1),
];

/// Looks on at the first cycle of an accepted run on these areas.
pub fn note_operands(tally: &mut Tally, image: &Image, registers: &[u8], targets: &[u8]) {
    let (values, _) = registers.as_chunks::<4>();
    let mut values: Vec<u32> = values
        .iter()
        .map(|value| u32::from_le_bytes(*value))
        .collect();
    let mut met = Met::default();
    Machine::new(image).cycle(&mut values, &mut targets.to_vec(), &mut met);
    for (kind, sorts) in SORTS {
        for (name, is_of_it) in sorts {
            tally.note(name, met.any(kind, is_of_it));
        }
    }
}

/// The operations of a cycle: kind, left and right.
#[derive(Default)]
struct Met(Vec<(u8, i32, i32)>);

impl Met {
    fn any(&self, kind: u8, is_of_it: &dyn Fn(i32, i32) -> bool) -> bool {
        let mut operations = self.0.iter();
        operations.any(|&(own, left, right)| own == kind && is_of_it(left, right))
    }
}

impl Watch for Met {
    fn operation(&mut self, kind: u8, left: u32, right: u32) {
        self.0.push((kind, left.cast_signed(), right.cast_signed()));
    }
}
