//! Faults in the directory, the counts and the section lengths (refusal 1).

use crate::generate::random::Random;
use crate::reference::limits::{
    MOST_COMMANDS, MOST_EXPRESSIONS, MOST_LABELS, MOST_REGISTERS, MOST_STATES,
};
use crate::table::{Node, Register, State, Table};

/// Those of an image; a gate table has others.
const SECTIONS: usize = 5;

/// The image of a design with a fault of refusal 1.
pub fn spoil_directory(table: &Table, random: &mut Random) -> Vec<u8> {
    let image = table.image();
    match random.below(5) {
        0 => wrong_field(image, SECTIONS, random),
        1 => moved_border(image, SECTIONS, random),
        2 => swapped_sections(image, SECTIONS, random),
        3 => resized_section(image, SECTIONS, random),
        _ => wrong_count(table, random),
    }
}

fn field(image: &[u8], index: usize) -> u16 {
    u16::from_le_bytes([image[2 * index], image[2 * index + 1]])
}

fn set_field(image: &mut [u8], index: usize, value: u16) {
    image[2 * index..2 * index + 2].copy_from_slice(&value.to_le_bytes());
}

fn add_to_field(image: &mut [u8], index: usize, difference: u16) {
    let value = field(image, index).wrapping_add(difference);
    set_field(image, index, value);
}

const MINUS_ONE: u16 = u16::MAX;

/// One offset or length is another number.
pub fn wrong_field(mut image: Vec<u8>, sections: usize, random: &mut Random) -> Vec<u8> {
    let index = random.below(2 * sections);
    let difference = *random.pick(&[1, MINUS_ONE, 2, 4, 8, 256, 0x8000, 0xFFF8]);
    add_to_field(&mut image, index, difference);
    image
}

/// A border between two sections moves, so that the sections still join.
pub fn moved_border(mut image: Vec<u8>, sections: usize, random: &mut Random) -> Vec<u8> {
    let section = random.below(sections - 1);
    let difference = *random.pick(&[1u16, MINUS_ONE, 2, 3, 4, 5, 6, 7, 8]);
    add_to_field(&mut image, 2 * section + 1, difference);
    add_to_field(&mut image, 2 * section + 2, difference);
    add_to_field(&mut image, 2 * section + 3, difference.wrapping_neg());
    image
}

/// Two sections change places in the directory: no longer sorted by offset.
pub fn swapped_sections(mut image: Vec<u8>, sections: usize, random: &mut Random) -> Vec<u8> {
    let section = random.below(sections - 1);
    for byte in 4 * section..4 * section + 4 {
        image.swap(byte, byte + 4);
    }
    image
}

/// A section of a length that is no whole number of records; all else fits it.
pub fn resized_section(mut image: Vec<u8>, sections: usize, random: &mut Random) -> Vec<u8> {
    let section = random.below(sections);
    let end = usize::from(field(&image, 2 * section)) + usize::from(field(&image, 2 * section + 1));
    let longer = field(&image, 2 * section + 1) == 0 || random.percent(50);
    let difference = if longer {
        image.insert(end, random.below(256) as u8);
        1
    } else {
        image.remove(end - 1);
        MINUS_ONE
    };
    add_to_field(&mut image, 2 * section + 1, difference);
    for later in section + 1..sections {
        add_to_field(&mut image, 2 * later, difference);
    }
    image
}

/// No label, no state, or one record more than the limit; the directory fits.
fn wrong_count(table: &Table, random: &mut Random) -> Vec<u8> {
    let mut table = table.clone();
    match random.below(7) {
        0 => table.rows.clear(),
        1 => table.states.clear(),
        2 => table.rows.resize(MOST_LABELS + 1, u16::MAX),
        3 => table
            .registers
            .resize(MOST_REGISTERS + 1, Register::default()),
        4 => table.states.resize(MOST_STATES + 1, State::default()),
        5 => table.commands.resize(MOST_COMMANDS + 1, Node::default()),
        _ => table
            .expressions
            .resize(MOST_EXPRESSIONS + 1, Node::default()),
    }
    table.image()
}
