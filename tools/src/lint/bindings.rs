//! Which registers each parameter can stand for: those that gotos give it, also through other parameters.

use super::uses::each_command;
use crate::table::node::Command;
use crate::table::{parameters, Table};
use std::collections::BTreeSet;

pub struct Bindings<'a> {
    table: &'a Table,
    /// Of each state's own parameters.
    bound: Vec<[BTreeSet<u8>; 2]>,
}

/// A goto's argument, and the parameter that it is given to.
struct Given {
    from: usize,
    argument: u16,
    to: usize,
    own: usize,
}

impl Bindings<'_> {
    /// By the gotos of the states that are asked for.
    pub fn of(table: &Table, asked: impl Fn(usize) -> bool) -> Bindings<'_> {
        let mut given = Vec::new();
        for from in (0..table.states.len()).filter(|&state| asked(state)) {
            each_command(table, from, &mut |_, command| {
                if let Command::Goto { state, arguments } = command {
                    let to = usize::from(state);
                    let own = 0..table.states[to].parameters().len();
                    given.extend(own.map(|own| Given {
                        from,
                        argument: arguments[own],
                        to,
                        own,
                    }));
                }
            });
        }
        let mut bindings = Bindings {
            table,
            bound: vec![Default::default(); table.states.len()],
        };
        while bindings.spread(&given) {}
        bindings
    }

    /// Whether anything was added.
    fn spread(&mut self, given: &[Given]) -> bool {
        let mut added = false;
        for one in given {
            for register in self.registers(one.from, one.argument) {
                added |= self.bound[one.to][one.own].insert(register);
            }
        }
        added
    }

    /// What a byte in the body of a state can stand for.
    pub fn registers(&self, state: usize, byte: u16) -> BTreeSet<u8> {
        let Some(number) = parameters::of_register(byte) else {
            return BTreeSet::from([byte as u8]);
        };
        match self.table.owner(state, number) {
            Some((owner, own)) => self.bound[owner][own].clone(),
            None => BTreeSet::new(),
        }
    }
}
