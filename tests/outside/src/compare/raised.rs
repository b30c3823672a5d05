//! Why a raising was answered as it was, where the number alone does not tell. Each reason has to be met.

use super::passes::Passes;
use super::tally::Tally;
use crate::answer::Answer;
use crate::reference::image::{Image, INNER};
use crate::reference::labelings::{try_all, Raisings};
use crate::reference::labels::{only, Labels};
use crate::reference::limits::MOST_LABELS;
use crate::reference::{check, flow_faults, with_labels};

/// So many labelings are tried at most.
const LABELINGS: usize = 600;

/// The image as it was lent, and the area afterwards.
pub struct Raised<'a> {
    pub image: &'a [u8],
    pub out: &'a [u8],
}

/// Of an answer of 0, 14 or 18. Fails where trying all labelings tells otherwise.
pub fn note_raised(tally: &mut Tally, raised: &Raised, answer: Answer) -> Result<(), String> {
    if !matches!(answer.number, 0 | 14 | 18) {
        return Ok(());
    }
    let image = Image::open(raised.image).expect("an image with good sections");
    let labels = Labels::judge(&image).expect("a lattice");
    let own = image.registers().map(|register| register.label);
    let (passes, least) = Passes::of(&image, &labels, own.collect());
    let after = with_labels(raised.image, &least);
    match answer.number {
        14 => {
            note_length(tally, raised, check(&after).number != 0);
            return Ok(());
        }
        18 => note_none(tally, &image, &after),
        _ if raised.out != after => {
            return Err("passes in reading order come to other labels".to_string());
        }
        _ => note_accepted(tally, &image, &labels, passes, &least),
    }
    note_labelings(tally, raised, answer)
}

fn note_length(tally: &mut Tally, raised: &Raised, hopeless: bool) {
    let (length, image) = (raised.out.len(), raised.image.len());
    tally.note("14 by an empty area", length == 0);
    tally.note("14 by a byte too few", length + 1 == image);
    tally.note("14 by a byte too many", length == image + 1);
    tally.note("14 where 18 would follow", hopeless);
    tally.note(
        "14, an image that check accepts",
        check(raised.image).number == 0,
    );
}

fn note_accepted(tally: &mut Tally, image: &Image, labels: &Labels, passes: usize, after: &[u8]) {
    tally.note("accepted, unchanged", passes == 0);
    tally.note("accepted, raised in one pass", passes == 1);
    tally.note("accepted, raised in two passes", passes == 2);
    tally.note("accepted, raised in three passes or more", passes > 2);
    note_labels(tally, image, labels, after);
    // What the labels would be if the design had given the inner registers none.
    let least = image.registers().map(|register| match register.kind {
        INNER => 0,
        _ => register.label,
    });
    let (_, needed) = Passes::of(image, labels, least.collect());
    tally.note(
        "accepted, a label above what is needed kept",
        needed != after,
    );
}

/// Which registers rose, and to what.
fn note_labels(tally: &mut Tally, image: &Image, labels: &Labels, after: &[u8]) {
    let (mut rose, mut stayed): (Vec<u8>, Vec<u8>) = Default::default();
    let mut given = image.states().fold(0, |set, state| set | only(state.label));
    let mut from_above_the_least = false;
    for (register, &label) in image.registers().zip(after) {
        given |= only(register.label);
        if register.label != label {
            rose.push(label);
            from_above_the_least |= register.label != 0;
        } else if register.kind == INNER {
            stayed.push(label);
        }
    }
    let some_stayed = !rose.is_empty() && !stayed.is_empty();
    tally.note("accepted, some inner registers raised", some_stayed);
    tally.note(
        "accepted, raised from above the least",
        from_above_the_least,
    );
    // Neither a register nor a state had it: it is the join of two that cannot be compared.
    let is_new = |&label: &u8| given & only(label) == 0;
    tally.note(
        "accepted, raised to a label that nothing had",
        rose.iter().any(is_new),
    );
    let all = u16::MAX >> (MOST_LABELS - image.rows().len());
    let top = labels.join(all);
    let below = rose.iter().any(|&label| label != top);
    tally.note("accepted, raised below the top", below);
}

/// The flow that cannot be met, and whether it could be met with the labels before.
fn note_none(tally: &mut Tally, image: &Image, after: &[u8]) {
    let before = flow_faults(image);
    let raised = Image::open(after).expect("the same sections");
    let faults = flow_faults(&raised);
    let new = |number: u32| {
        let mut of_it = faults.iter().filter(|fault| fault.number == number);
        of_it.any(|fault| !before.contains(fault))
    };
    let old = |number: u32| before.iter().any(|fault| fault.number == number);
    tally.note("18 by a goto at fault before", old(11));
    tally.note("18 by a fall at fault before", old(12));
    let assignments = !old(11) && !old(12);
    tally.note("18 by a goto, no fault before", assignments && new(11));
    tally.note("18 by a fall, no fault before", assignments && new(12));
}

/// On small designs all labelings are tried: whether one is accepted, and which is the least.
fn note_labelings(tally: &mut Tally, raised: &Raised, answer: Answer) -> Result<(), String> {
    let Some(raisings) = try_all(raised.image, LABELINGS) else {
        return Ok(());
    };
    let (right, count) = match &raisings {
        Raisings::None => (answer.number == 18, 0),
        Raisings::Least(least, count) => (answer.number == 0 && raised.out == least, *count),
        Raisings::NoLeast => (false, 0),
    };
    if !right {
        return Err(format!("trying all labelings comes to {raisings:?}"));
    }
    tally.note("tried all labelings: none is accepted", count == 0);
    tally.note("tried all labelings: the only one", count == 1);
    tally.note("tried all labelings: the least of several", count > 1);
    Ok(())
}
