//! Registers and states, each by itself (refusals 3 and 4).

use super::image::{Image, Register, PORT};
use super::labels::Labels;
use super::limits::{PARAMETER_LABEL, WIDEST};
use super::refusal::Refusal;
use super::scopes::parameter;

pub fn judge_registers(image: &Image, labels: &Labels) -> Result<(), Refusal> {
    for (number, register) in image.registers().enumerate() {
        let known = labels.contains(register.label) && register.kind <= PORT;
        if !known || !starts_within(&register) {
            return Err(Refusal::new(3, number));
        }
    }
    Ok(())
}

/// Request E2: a width in its range, and a reset value that it holds.
fn starts_within(register: &Register) -> bool {
    (1..=WIDEST).contains(&register.width) && register.reset <= register.most()
}

pub fn judge_states(image: &Image, labels: &Labels) -> Result<(), Refusal> {
    let commands = image.commands().len();
    for (number, state) in image.states().enumerate() {
        // Whether a parameter's label is in scope is 19's to say.
        let label = parameter(state.label, PARAMETER_LABEL).is_some();
        let placed = if number == 0 {
            state.parent == 0 && (label || state.label == 0)
        } else {
            usize::from(state.parent) < number && (label || labels.contains(state.label))
        };
        if !placed || usize::from(state.command) >= commands {
            return Err(Refusal::new(4, number));
        }
    }
    Ok(())
}
