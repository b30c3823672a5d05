//! How a body ends: each goto and fall, with the conditions of the ifs around it.

use crate::named::Named;
use crate::table::node::Command;

/// Where a body leads.
#[derive(Clone, Debug, PartialEq, Eq)]
pub enum End {
    Fall,
    Goto { state: u8, arguments: [u16; 2] },
}

pub struct Way {
    pub end: End,
    /// Each a list of conditions that all hold. With one that is empty nothing has to.
    pub when: Vec<Vec<String>>,
}

/// The ends of a state's body in reading order, each once. Where there is one alone, nothing decides.
pub fn of_state(named: &Named, state: usize) -> Vec<Way> {
    let mut reader = Reader {
        named,
        state,
        read: vec![false; named.table.commands.len()],
        conditions: Vec::new(),
        ways: Vec::new(),
    };
    reader.command(named.table.states[state].command);
    let mut ways = reader.ways;
    if let [only] = &mut ways[..] {
        only.when = vec![Vec::new()];
    }
    ways
}

struct Reader<'a> {
    named: &'a Named<'a>,
    state: usize,
    /// A table may use a command many times, or as a part of itself.
    read: Vec<bool>,
    conditions: Vec<String>,
    ways: Vec<Way>,
}

impl Reader<'_> {
    fn command(&mut self, number: u16) {
        let Some(node) = self.named.table.commands.get(usize::from(number)) else {
            return;
        };
        if std::mem::replace(&mut self.read[usize::from(number)], true) {
            return;
        }
        match Command::of(*node) {
            Some(Command::Fall) => self.end(End::Fall),
            Some(Command::Goto { state, arguments }) => self.end(End::Goto { state, arguments }),
            Some(Command::Sequence { first, second }) => {
                self.command(first);
                self.command(second);
            }
            Some(Command::If {
                condition,
                then,
                otherwise,
            }) => {
                let condition = self.named.expression(self.state, condition);
                let negated = format!("not ({condition})");
                self.under(condition, then);
                self.under(negated, otherwise);
            }
            Some(Command::Skip | Command::Assign { .. }) | None => (),
        }
    }

    fn under(&mut self, condition: String, command: u16) {
        self.conditions.push(condition);
        self.command(command);
        self.conditions.pop();
    }

    fn end(&mut self, end: End) {
        let conditions = self.conditions.clone();
        match self.ways.iter_mut().find(|way| way.end == end) {
            Some(way) => way.when.push(conditions),
            None => self.ways.push(Way {
                end,
                when: vec![conditions],
            }),
        }
    }
}
