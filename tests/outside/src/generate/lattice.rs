//! Random lattices as label rows, label 0 least, the other labels in any order.

use super::random::Random;
use crate::reference::limits::MOST_LABELS;

/// Any lattice of at most so many labels.
pub fn lattice(random: &mut Random, most: usize) -> Vec<u16> {
    loop {
        let sets = match random.below(6) {
            0 => chain(random.between(1, most)),
            1 => flat(random.between(1, most)),
            2 => powerset(random.below(5)),
            3 => product(random),
            4 => pentagon(),
            _ => closed_under_union(random, most),
        };
        if sets.len() <= most {
            return rows(sets, random);
        }
    }
}

/// A lattice of exactly 16 labels.
pub fn largest_lattice(random: &mut Random) -> Vec<u16> {
    loop {
        let sets = match random.below(5) {
            0 => chain(MOST_LABELS),
            1 => flat(MOST_LABELS),
            2 => powerset(4),
            3 => product(random),
            _ => closed_under_union(random, MOST_LABELS),
        };
        if sets.len() == MOST_LABELS {
            return rows(sets, random);
        }
    }
}

/// Every finite lattice is a family of sets, ordered by inclusion, that holds the empty set
/// and the union of each two members; so a lattice here is such a family.
type Sets = Vec<u64>;

fn chain(count: usize) -> Sets {
    (0..count).map(|size| (1 << size) - 1).collect()
}

/// Bottom, top, and between them labels that cannot be compared.
fn flat(count: usize) -> Sets {
    let middle = count.saturating_sub(2);
    let mut sets = vec![0];
    sets.extend((0..middle).map(|i| 1 << i));
    if count > 1 {
        sets.push(u64::MAX >> 32);
    }
    sets
}

fn powerset(elements: usize) -> Sets {
    (0..1 << elements).collect()
}

/// Of two or three chains.
fn product(random: &mut Random) -> Sets {
    let lengths = [
        random.between(2, 8),
        random.between(2, 8),
        random.between(1, 4),
    ];
    let mut sets = Vec::new();
    for i in 0..lengths[0] {
        for j in 0..lengths[1] {
            for k in 0..lengths[2] {
                sets.push(((1 << i) - 1) | (((1 << j) - 1) << 8) | (((1 << k) - 1) << 16));
            }
        }
    }
    sets
}

/// The smallest lattice that is not modular.
fn pentagon() -> Sets {
    vec![0, 0b001, 0b011, 0b100, 0b111]
}

fn closed_under_union(random: &mut Random, most: usize) -> Sets {
    let elements = random.between(2, 7);
    let wanted = random.between(1, most);
    let mut sets = vec![0];
    for _ in 0..40 {
        if sets.len() >= wanted {
            break;
        }
        let added = random.below(1 << elements) as u64;
        let mut larger = sets.clone();
        for set in &sets {
            if !larger.contains(&(set | added)) {
                larger.push(set | added);
            }
        }
        if larger.len() <= most {
            sets = larger;
        }
    }
    sets
}

fn rows(mut sets: Sets, random: &mut Random) -> Vec<u16> {
    // The empty set is first and stays there: label 0 is least.
    random.shuffle(&mut sets[1..]);
    sets.iter()
        .map(|lower| {
            let above = |(j, upper): (usize, &u64)| u16::from(lower & !upper == 0) << j;
            sets.iter().enumerate().map(above).sum()
        })
        .collect()
}
