//! What is not sound about areas, refusal 14, by what breaks it.

use crate::reference::image::Image;
use crate::reference::limits::TARGET_BYTES;
use crate::reference::machine::Machine;

/// What is not sound about areas of the right lengths.
#[derive(Clone, Copy, PartialEq, Eq)]
pub enum Fault {
    Contents,
    Target,
    Binding,
}

pub fn fault(image: &Image, registers: &[u8], targets: &[u8]) -> Option<Fault> {
    let machine = Machine::new(image);
    let (values, _) = registers.as_chunks::<4>();
    let mut pairs = image.registers().zip(values);
    if pairs.any(|(register, bytes)| u32::from_le_bytes(*bytes) > register.most()) {
        Some(Fault::Contents)
    } else if machine.unsound_target(targets).is_some() {
        Some(Fault::Target)
    } else if machine.unsound_binding(targets).is_some() {
        Some(Fault::Binding)
    } else {
        None
    }
}

pub fn right_lengths(image: &Image, registers: &[u8], targets: &[u8]) -> bool {
    registers.len() == 4 * image.registers().len()
        && targets.len() == TARGET_BYTES * image.states().len()
}
