//! Request E6: the least accepted raising. It goes over no labels again and again: what has to flow to a
//! register is what reaches it, at once or through others, so that reachability between the registers
//! tells each one's label.

use super::calls::{answer, judge, judge_before_flow};
use super::image::*;
use super::labels::{only, LabelSet, Labels};
use super::limits::*;
use super::refusal::Refusal;
use crate::answer::Answer;

/// Registers, one bit for each.
type RegisterSet = u64;

pub fn raise(image: &[u8], out: &mut [u8]) -> Answer {
    answer(try_raise(image, out))
}

fn try_raise(bytes: &[u8], out: &mut [u8]) -> Result<usize, Refusal> {
    let (image, labels) = judge_before_flow(bytes)?;
    // Request E8. What else speaks of parameters is refused by 19 where there are none.
    if image.states().any(|state| state.count > 0) {
        return Err(Refusal::new(20, 0));
    }
    if out.len() != bytes.len() {
        return Err(Refusal::new(14, 0));
    }
    let raised = with_labels(bytes, &Sources::of(&image).labels(&image, &labels));
    // Every accepted raising has these labels or higher ones, and with higher ones still more has to
    // flow to the fixed label of a state: so if this one is refused, all are.
    judge(&raised).map_err(|_| Refusal::new(18, 0))?;
    out.copy_from_slice(&raised);
    Ok(0)
}

/// The image with these labels of its registers.
pub fn with_labels(bytes: &[u8], labels: &[u8]) -> Vec<u8> {
    let rows = Image::open(bytes).map_or(0, |image| image.rows().len());
    let mut changed = bytes.to_vec();
    let registers = &mut changed[DIRECTORY_BYTES + ROW_BYTES * rows..];
    for (record, label) in registers.chunks_mut(REGISTER_BYTES).zip(labels) {
        record[0] = *label;
    }
    changed
}

/// What the assignments to each register let flow to it.
struct Sources {
    /// The registers read in them and in the conditions around them.
    registers: [RegisterSet; MOST_REGISTERS],
    /// The labels of the states that they stand in.
    states: [LabelSet; MOST_REGISTERS],
}

impl Sources {
    /// Owners stand above their parts, so one pass downwards meets every owner first.
    fn of(image: &Image) -> Sources {
        let reads = reads(image);
        let mut sources = Sources {
            registers: [0; MOST_REGISTERS],
            states: [0; MOST_REGISTERS],
        };
        // For each command the registers read in the conditions around it, and its state's label.
        let mut around = vec![(0, 0); image.commands().len()];
        for state in image.states() {
            around[usize::from(state.command)].1 = only(state.label);
        }
        for (number, node) in image.commands().enumerate().rev() {
            let (conditions, state) = around[number];
            match node.kind {
                ASSIGN => {
                    let written = usize::from(node.which);
                    sources.registers[written] |= conditions | reads[usize::from(node.a)];
                    sources.states[written] |= state;
                }
                SEQUENCE => {
                    around[usize::from(node.a)] = (conditions, state);
                    around[usize::from(node.b)] = (conditions, state);
                }
                IF => {
                    let inner = conditions | reads[usize::from(node.a)];
                    around[usize::from(node.b)] = (inner, state);
                    around[usize::from(node.c)] = (inner, state);
                }
                _ => {}
            }
        }
        sources
    }

    /// The least label of each register that it and all that reaches it flow to.
    fn labels(mut self, image: &Image, labels: &Labels) -> Vec<u8> {
        self.close();
        let own: Vec<LabelSet> = image.registers().map(|r| only(r.label)).collect();
        let of_all = |register: usize| {
            let reaching = (0..own.len())
                .filter(|&other| other == register || self.registers[register] >> other & 1 == 1);
            reaching.fold(0, |set, other| set | own[other] | self.states[other])
        };
        (0..own.len())
            .map(|register| labels.join(of_all(register)))
            .collect()
    }

    /// Through any number of registers.
    fn close(&mut self) {
        for middle in 0..MOST_REGISTERS {
            let behind = self.registers[middle];
            for sources in &mut self.registers {
                if *sources >> middle & 1 == 1 {
                    *sources |= behind;
                }
            }
        }
    }
}

/// For each expression the registers read in it.
fn reads(image: &Image) -> Vec<RegisterSet> {
    let mut reads: Vec<RegisterSet> = Vec::with_capacity(image.expressions().len());
    for node in image.expressions() {
        reads.push(match node.kind {
            CONSTANT => 0,
            READ => 1 << node.which,
            _ => reads[usize::from(node.a)] | reads[usize::from(node.b)],
        });
    }
    reads
}
