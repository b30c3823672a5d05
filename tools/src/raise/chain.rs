//! Through which assignments a label came to a register that may not flow somewhere.

use super::flows::{flows_to, Flow, To};
use crate::table::Table;
use std::collections::VecDeque;

/// Where a label begins.
#[derive(Clone, Copy)]
pub enum Begin {
    /// A register that has it in the design as it is.
    Register(u8),
    /// The state of the first assignment of the chain.
    State(u8),
}

/// From its begin to the register, by assignments each of which takes what the one before has written.
pub struct Chain<'a> {
    pub begin: Begin,
    pub links: Vec<&'a Flow>,
}

/// The shortest chain that brings to this register a label which does not flow to the target. The table has
/// the labels of the design as it is. None where none does.
pub fn chain<'a>(table: &Table, flows: &'a [Flow], register: u8, target: u8) -> Option<Chain<'a>> {
    let too_high = |label: u8| !flows_to(table, label, target);
    // For each register the assignment that takes its value on, and the register written there.
    let mut onward: Vec<Option<&Flow>> = vec![None; table.registers.len()];
    let mut met = vec![false; table.registers.len()];
    let mut queue = VecDeque::from([register]);
    met[usize::from(register)] = true;
    while let Some(reached) = queue.pop_front() {
        let links = || links(&onward, reached, register);
        if too_high(table.registers[usize::from(reached)].label) {
            let begin = Begin::Register(reached);
            return Some(Chain {
                begin,
                links: links(),
            });
        }
        let writes = |flow: &&Flow| flow.to == To::Register(reached);
        if let Some(flow) = (flows.iter().filter(writes))
            .find(|flow| too_high(table.states[usize::from(flow.state)].label))
        {
            let begin = Begin::State(flow.state);
            let links = [vec![flow], links()].concat();
            return Some(Chain { begin, links });
        }
        for flow in flows.iter().filter(writes) {
            for source in flow.registers().map(usize::from) {
                if !met[source] {
                    met[source] = true;
                    onward[source] = Some(flow);
                    queue.push_back(source as u8);
                }
            }
        }
    }
    None
}

/// The assignments on the way from one register to the other.
fn links<'a>(onward: &[Option<&'a Flow>], from: u8, to: u8) -> Vec<&'a Flow> {
    let mut links = Vec::new();
    let mut at = from;
    while at != to {
        let Some(flow) = onward[usize::from(at)] else {
            break;
        };
        links.push(flow);
        let To::Register(written) = flow.to else {
            break;
        };
        at = written;
    }
    links
}
