//! A table cut into its records. Only the directory is judged: without it nothing can be cut.

use super::limits::RECORDS;
use super::{Bounds, Node, Register, State, Table};

/// The pairs of offset and length of a directory of so many, as far as the image has them.
pub fn pairs<const N: usize>(image: &[u8]) -> Vec<(usize, usize)> {
    let pairs = image.chunks_exact(PAIR).take(N);
    pairs
        .map(|pair| (usize::from(half(pair, 0)), usize::from(half(pair, 2))))
        .collect()
}

/// Bytes of a pair.
const PAIR: usize = 4;

/// Or says why the image cannot be cut.
pub fn read(image: &[u8]) -> Result<Table, String> {
    sections(image, SECTIONS, RECORDS).map(cut)
}

/// The bytes of each section, where the records have these lengths; or why there are none.
pub fn sections<'a, const N: usize>(
    image: &'a [u8],
    names: [&str; N],
    records: [usize; N],
) -> Result<[&'a [u8]; N], String> {
    let pairs = pairs::<N>(image);
    let mut end = PAIR * N;
    if pairs.len() < N {
        return Err(format!(
            "a directory has {end} bytes, the image {}",
            image.len()
        ));
    }
    for (section, ((offset, length), record)) in pairs.iter().zip(records).enumerate() {
        let name = names[section];
        if *offset != end {
            return Err(format!("the {name} begin at {offset}, not at {end}"));
        }
        if length % record != 0 {
            return Err(format!(
                "the {name} have {length} bytes, with {record} for each"
            ));
        }
        end += length;
    }
    if end != image.len() {
        return Err(format!(
            "the sections end at {end}, the image at {}",
            image.len()
        ));
    }
    Ok(std::array::from_fn(|section| {
        let (offset, length) = pairs[section];
        &image[offset..offset + length]
    }))
}

pub const SECTIONS: [&str; 5] = ["labels", "registers", "states", "commands", "expressions"];

/// Which of the sections the registers and the states are.
pub const REGISTERS: usize = 1;
pub const STATES: usize = 2;

/// Each section is a whole number of records.
pub fn cut(sections: [&[u8]; 5]) -> Table {
    let records = |section: usize| sections[section].chunks_exact(RECORDS[section]);
    Table {
        rows: records(0).map(|row| half(row, 0)).collect(),
        registers: records(1).map(register).collect(),
        states: records(2).map(state).collect(),
        commands: records(3).map(node).collect(),
        expressions: records(4).map(node).collect(),
    }
}

fn register(bytes: &[u8]) -> Register {
    Register {
        label: bytes[0],
        kind: bytes[1],
        reset: u32::from(half(bytes, 2)) | u32::from(half(bytes, 4)) << 16,
        width: bytes[6],
    }
}

fn state(bytes: &[u8]) -> State {
    State {
        parent: bytes[0],
        label: bytes[1],
        command: half(bytes, 2),
        count: bytes[4],
        bounds: std::array::from_fn(|parameter| Bounds {
            lower: bytes[5 + 2 * parameter],
            upper: bytes[6 + 2 * parameter],
        }),
    }
}

fn node(bytes: &[u8]) -> Node {
    Node {
        kind: bytes[0],
        which: bytes[1],
        a: half(bytes, 2),
        b: half(bytes, 4),
        c: half(bytes, 6),
    }
}

pub fn half(bytes: &[u8], at: usize) -> u16 {
    u16::from_le_bytes([bytes[at], bytes[at + 1]])
}
