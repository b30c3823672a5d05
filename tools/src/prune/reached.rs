//! Which states of an accepted design are reached, and why each of them is, or is not. Falls and gotos are
//! those of the bodies as they are written, also in branches that no value takes.

use crate::table::node::Command;
use crate::table::Table;

pub struct Reached<'a> {
    table: &'a Table,
    leads: Vec<Leads>,
    stays: Vec<bool>,
}

/// Where a body leads.
#[derive(Default)]
struct Leads {
    falls: bool,
    gotos: Vec<usize>,
}

/// Of a state that stays the first reason in this order, the lowest state of those that go to it; of one that
/// goes what it lacks.
pub enum Why {
    Root,
    /// The default child of this state.
    Fall(usize),
    /// Named by this state's goto.
    Goto(usize),
    /// This parent is not reached, so none of its children is.
    Parent(usize),
    /// This parent is reached and holds no fall.
    NoFall(usize),
    /// Of the states beside it only these, which are not reached, go to it.
    NoGoto(Vec<usize>),
}

impl Reached<'_> {
    pub fn of(table: &Table) -> Reached<'_> {
        let leads = table.states.iter().map(|state| {
            let mut leads = Leads::default();
            leads.read(table, state.command);
            leads
        });
        let mut reached = Reached {
            table,
            leads: leads.collect(),
            stays: vec![false; table.states.len()],
        };
        reached.mark(0);
        reached
    }

    fn mark(&mut self, state: usize) {
        if std::mem::replace(&mut self.stays[state], true) {
            return;
        }
        let mut next = self.leads[state].gotos.clone();
        if self.leads[state].falls {
            next.extend(self.table.default_child(state));
        }
        for state in next {
            self.mark(state);
        }
    }

    pub fn stays(&self, state: usize) -> bool {
        self.stays[state]
    }

    /// How many of the states below it stay.
    pub fn new_number(&self, state: usize) -> usize {
        self.stays[..state].iter().filter(|&&stays| stays).count()
    }

    pub fn why(&self, state: usize) -> Why {
        if state == 0 {
            return Why::Root;
        }
        let parent = usize::from(self.table.states[state].parent);
        let others = (0..self.leads.len())
            .filter(|&other| other != state && self.leads[other].gotos.contains(&state));
        match (self.stays[parent], self.leads[parent].falls) {
            (false, _) => Why::Parent(parent),
            (true, false) => Why::NoFall(parent),
            (true, true) if self.table.default_child(parent) == Some(state) => Why::Fall(parent),
            (true, true) => match others.clone().find(|&other| self.stays[other]) {
                Some(from) => Why::Goto(from),
                None => Why::NoGoto(others.collect()),
            },
        }
    }
}

impl Leads {
    fn read(&mut self, table: &Table, command: u16) {
        match Command::of(table.commands[usize::from(command)]) {
            Some(Command::Fall) => self.falls = true,
            Some(Command::Goto { state, .. }) => self.gotos.push(state.into()),
            Some(Command::Sequence { first, second }) => {
                self.read(table, first);
                self.read(table, second);
            }
            Some(Command::If {
                then, otherwise, ..
            }) => {
                self.read(table, then);
                self.read(table, otherwise);
            }
            _ => (),
        }
    }
}
