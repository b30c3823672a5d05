//! Refusal 2: label rows, P7 to P9 and the worked lattices.

use super::{changed, refused, Example};
use crate::designs::smallest;

pub fn examples() -> Vec<Example> {
    vec![
        lattice("P7: rows 1", &[1]),
        lattice("P8: rows 15 10 12 8", &[15, 10, 12, 8]),
        lattice("rows 3 2 are a lattice", &[3, 2]),
        lattice("rows 7 6 4 are a lattice", &[7, 6, 4]),
        lattice("rows 15 14 12 8 are a lattice", &[15, 14, 12, 8]),
        lattice("the pentagon is a lattice", &[31, 22, 20, 24, 16]),
        none("P9: rows 7 2 4, no label above two", &[7, 2, 4], 1),
        none("2: rows 1, 2", &[1, 2], 0),
        none("2: a row of no bits", &[0], 0),
        none("2: row 0 not reflexive", &[2], 0),
        none("2: the lowest label over all rules", &[3, 0], 0),
        none("2: a bit at the label count", &[3, 6], 1),
        none("2: a bit at the label count of one", &[3], 0),
        none("2: antisymmetric", &[7, 6, 6], 1),
        // 1 flows to 2, 2 to 3, and 1 not to 3.
        none("2: transitive, charged to the first", &[15, 6, 12, 8], 1),
        // Two upper bounds that cannot be compared, below one top.
        none(
            "2: common labels without a least",
            &[63, 0b111010, 0b111100, 0b101000, 0b110000, 0b100000],
            1,
        ),
    ]
}

fn lattice(sentence: &'static str, rows: &[u16]) -> Example {
    judged(sentence, rows, 0, 0)
}

fn none(sentence: &'static str, rows: &[u16], place: usize) -> Example {
    judged(sentence, rows, 2, place)
}

fn judged(sentence: &'static str, rows: &[u16], number: u32, place: usize) -> Example {
    let table = changed(smallest(), |table| table.rows = rows.to_vec());
    refused(sentence, &table, number, place)
}
