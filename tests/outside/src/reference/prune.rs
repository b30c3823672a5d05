//! Request E11: the image with only the states that can be reached. It works by the state that each node belongs
//! to: owners stand above their parts, so one pass downwards meets every owner first.

use super::calls::{answer, judge};
use super::image::*;
use super::limits::*;
use super::parts::{command_parts, expression_of, expression_parts};
use super::refusal::Refusal;
use crate::answer::Answer;

pub fn prune(image: &[u8], out: &mut [u8]) -> Answer {
    answer(try_prune(image, out))
}

fn try_prune(bytes: &[u8], out: &mut [u8]) -> Result<usize, Refusal> {
    let image = judge(bytes)?;
    let pruned = pruned(bytes, &image);
    let area = out.get_mut(..pruned.len()).ok_or(Refusal::new(24, 0))?;
    area.copy_from_slice(&pruned);
    Ok(pruned.len())
}

/// For each state whether it is reached. Expects an accepted image.
pub fn reached(image: &Image) -> Vec<bool> {
    Owners::of(image).reached(image)
}

/// The state that each node belongs to.
struct Owners {
    commands: Vec<u8>,
    expressions: Vec<u8>,
}

impl Owners {
    fn of(image: &Image) -> Owners {
        let mut owners = Owners {
            commands: vec![0; image.commands().len()],
            expressions: vec![0; image.expressions().len()],
        };
        for (number, state) in image.states().enumerate() {
            owners.commands[usize::from(state.command)] = number as u8;
        }
        for (number, node) in image.commands().enumerate().rev() {
            let owner = owners.commands[number];
            for part in command_parts(&node) {
                owners.commands[usize::from(part)] = owner;
            }
            if let Some(part) = expression_of(&node) {
                owners.expressions[usize::from(part)] = owner;
            }
        }
        for (number, node) in image.expressions().enumerate().rev() {
            for part in expression_parts(&node) {
                owners.expressions[usize::from(part)] = owners.expressions[number];
            }
        }
        owners
    }

    /// From the root along falls and gotos as they are written, whether or not a value takes their branch.
    fn reached(&self, image: &Image) -> Vec<bool> {
        let mut default_child = [None; MOST_STATES];
        for (number, state) in image.states().enumerate().skip(1) {
            default_child[usize::from(state.parent)].get_or_insert(number);
        }
        let mut next: Vec<Vec<usize>> = vec![Vec::new(); image.states().len()];
        for (node, &owner) in image.commands().zip(&self.commands) {
            let owner = usize::from(owner);
            match node.kind {
                FALL => next[owner].extend(default_child[owner]),
                GOTO => next[owner].push(node.which.into()),
                _ => {}
            }
        }
        let mut reached = vec![false; next.len()];
        let mut ahead = vec![0];
        while let Some(state) = ahead.pop() {
            if !reached[state] {
                reached[state] = true;
                ahead.extend(&next[state]);
            }
        }
        reached
    }
}

/// New numbers for those that stay, in their order.
struct Numbers(Vec<Option<u16>>);

impl Numbers {
    fn closed_up(stay: impl Iterator<Item = bool>) -> Numbers {
        let mut count = 0;
        let mut next = || {
            count += 1;
            count - 1
        };
        Numbers(stay.map(|stays| stays.then(&mut next)).collect())
    }

    fn of(&self, old: u16) -> u16 {
        let new = self.0[usize::from(old)];
        new.expect("what stays names only what stays")
    }

    fn of_byte(&self, old: u8) -> u8 {
        self.of(old.into()) as u8
    }

    /// Those of the records that stay.
    fn staying<'a, T>(
        &'a self,
        records: impl Iterator<Item = T> + 'a,
    ) -> impl Iterator<Item = T> + 'a {
        let pairs = records.zip(&self.0);
        pairs.filter_map(|(record, number)| number.map(|_| record))
    }
}

/// The bytes of the result. Labels and registers are those of the image.
fn pruned(bytes: &[u8], image: &Image) -> Vec<u8> {
    let owners = Owners::of(image);
    let reached = owners.reached(image);
    let of_owner = |owner: &u8| reached[usize::from(*owner)];
    let states = Numbers::closed_up(reached.iter().copied());
    let commands = Numbers::closed_up(owners.commands.iter().map(of_owner));
    let expressions = Numbers::closed_up(owners.expressions.iter().map(of_owner));

    let rows = ROW_BYTES * image.rows().len();
    let registers = REGISTER_BYTES * image.registers().len();
    let mut sections = [rows, registers, 0, 0, 0];
    let mut records = bytes[DIRECTORY_BYTES..DIRECTORY_BYTES + rows + registers].to_vec();
    for state in states.staying(image.states()) {
        sections[2] += STATE_BYTES;
        let changed = State {
            parent: states.of_byte(state.parent),
            command: commands.of(state.command),
            ..state
        };
        records.extend(changed.bytes());
    }
    for mut node in commands.staying(image.commands()) {
        sections[3] += NODE_BYTES;
        match node.kind {
            ASSIGN => node.a = expressions.of(node.a),
            SEQUENCE => (node.a, node.b) = (commands.of(node.a), commands.of(node.b)),
            GOTO => node.which = states.of_byte(node.which),
            IF => {
                node.a = expressions.of(node.a);
                (node.b, node.c) = (commands.of(node.b), commands.of(node.c));
            }
            _ => {}
        }
        records.extend(node.bytes());
    }
    for mut node in expressions.staying(image.expressions()) {
        sections[4] += NODE_BYTES;
        if !matches!(node.kind, CONSTANT | READ) {
            (node.a, node.b) = (expressions.of(node.a), expressions.of(node.b));
        }
        records.extend(node.bytes());
    }
    [directory(sections), records].concat()
}

fn directory(sections: [usize; 5]) -> Vec<u8> {
    let mut offset = DIRECTORY_BYTES;
    let mut pairs = Vec::new();
    for length in sections {
        pairs.extend((offset as u16).to_le_bytes());
        pairs.extend((length as u16).to_le_bytes());
        offset += length;
    }
    pairs
}
