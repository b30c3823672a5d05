//! The label rows: a lattice with label 0 least (refusal 2), and "flows to" on sets of labels.

use super::image::Image;
use super::limits::MOST_LABELS;
use super::refusal::Refusal;

/// A set of labels, one bit for each.
pub type LabelSet = u16;

pub fn only(label: u8) -> LabelSet {
    1 << label
}

pub struct Labels {
    /// For each label, the labels that flow to it.
    below: [LabelSet; MOST_LABELS],
    count: usize,
}

impl Labels {
    pub fn judge(image: &Image) -> Result<Labels, Refusal> {
        let mut rows = [0; MOST_LABELS];
        let count = image.rows().len();
        for (row, given) in rows.iter_mut().zip(image.rows()) {
            *row = given;
        }
        let rows = &rows[..count];
        for i in 0..count {
            if !row_holds(rows, i) {
                return Err(Refusal::new(2, i));
            }
        }
        let mut below = [0; MOST_LABELS];
        for (i, row) in rows.iter().enumerate() {
            for j in members(*row) {
                below[j] |= 1 << i;
            }
        }
        Ok(Labels { below, count })
    }

    pub fn contains(&self, label: u8) -> bool {
        usize::from(label) < self.count
    }

    pub fn all(&self) -> impl Iterator<Item = u8> {
        0..self.count as u8
    }

    /// Every label of the set flows to the one given.
    pub fn flow(&self, set: LabelSet, to: u8) -> bool {
        set & !self.below[usize::from(to)] == 0
    }

    /// The least label that every label of the set flows to.
    pub fn join(&self, set: LabelSet) -> u8 {
        let above = || self.all().filter(|&label| self.flow(set, label));
        let least = |&label: &u8| above().all(|other| self.flow(only(label), other));
        above().find(least).expect("a lattice")
    }
}

fn members(set: LabelSet) -> impl Iterator<Item = usize> {
    (0..MOST_LABELS).filter(move |&i| set >> i & 1 == 1)
}

/// Row i itself, and every rule with i first.
fn row_holds(rows: &[LabelSet], i: usize) -> bool {
    let all = LabelSet::MAX >> (MOST_LABELS - rows.len());
    let row = rows[i];
    let within = row & !all == 0;
    let reflexive = row >> i & 1 == 1;
    let least = i != 0 || row == all;
    within
        && reflexive
        && least
        && members(row).all(|j| {
            let antisymmetric = j == i || rows[j] >> i & 1 == 0;
            // Bits at or above the count are charged to their own row only.
            let transitive = rows[j] & all & !row == 0;
            antisymmetric && transitive
        })
        && rows.iter().all(|other| has_least(rows, row & other & all))
}

/// Some member flows to all members.
fn has_least(rows: &[LabelSet], set: LabelSet) -> bool {
    members(set).any(|m| set & !rows[m] == 0)
}
