//! Designs for raising, request E6: labels of inner registers that are too low, and labels that come to
//! a register through others.

use super::lattice::lattice;
use super::random::Random;
use crate::reference::image::INNER;
use crate::reference::limits::{MOST_LABELS, WIDEST};
use crate::table::Table;

/// The design with lower labels of inner registers: often the least, or any at or below the old one. An
/// accepted design is then an accepted raising of what comes out.
pub fn lowered(table: &Table, random: &mut Random) -> Table {
    let mut table = table.clone();
    let share = *random.pick(&[30, 100, 100]);
    let to_least = random.percent(50);
    for register in table.of_kind(INNER).into_iter().map(usize::from) {
        if random.percent(share) {
            let old = table.registers[register].label;
            let mut below: Vec<u8> = (0..table.rows.len() as u8).collect();
            below.retain(|&label| table.flows(label, old));
            let lower = *random.pick(&below);
            table.registers[register].label = if to_least { 0 } else { lower };
        }
    }
    table
}

/// A path of assignments from register to register, most against the reading order, through values
/// and conditions, over some states; each of these ends by a goto or a fall, perhaps by what came along.
/// Most of these designs break the flow rules; some have an accepted raising.
pub fn chained(random: &mut Random) -> Table {
    let most = *random.pick(&[2, 3, 4, 5, 8, MOST_LABELS - 1]);
    let mut table = Table::new(&lattice(random, most));
    let path = registers(&mut table, random);
    let groups = random.between(1, 3);
    let mut links: Vec<Vec<(u8, u8)>> = vec![Vec::new(); groups];
    for pair in path.windows(2) {
        links[random.below(groups)].push((pair[0], pair[1]));
    }
    let labels: Vec<u8> = (0..groups).map(|_| low_or_any(&table, random)).collect();
    let fall = table.fall();
    table.state(0, 0, fall);
    for (group, mut links) in links.into_iter().enumerate() {
        match random.below(5) {
            0 => {}
            1 => random.shuffle(&mut links),
            _ => links.reverse(),
        }
        let own = group as u8 + 1;
        let body = Body {
            table: &mut table,
            random,
            own,
            groups: groups as u8,
        }
        .write(&links);
        table.state(0, labels[group], body);
    }
    // A child for each, so that it may fall.
    for (group, &label) in labels.iter().enumerate() {
        let body = table.goto(table.states.len() as u8);
        table.state(group as u8 + 1, label, body);
    }
    table.renumber(random);
    table
}

/// Ports and inner registers in any order. Gives a path through all inner ones that begins with a port.
fn registers(table: &mut Table, random: &mut Random) -> Vec<u8> {
    let labels = table.rows.len();
    let ports = random.between(1, 2);
    let inner = match random.below(3) {
        0 => random.between(1, 12),
        _ => random.between(1, 4),
    };
    let mut is_port: Vec<bool> = (0..ports + inner).map(|i| i < ports).collect();
    random.shuffle(&mut is_port);
    let mut path = Vec::new();
    let mut begin = 0;
    for is_port in is_port {
        if is_port {
            begin = table.port(random.below(labels) as u8, 0, WIDEST);
        } else {
            let label = low_or_any(table, random);
            path.push(table.inner(label, 0, WIDEST));
        }
    }
    random.shuffle(&mut path);
    path.insert(0, begin);
    path
}

/// The least label often, so that one that comes along matters.
fn low_or_any(table: &Table, random: &mut Random) -> u8 {
    if random.percent(70) {
        0
    } else {
        random.below(table.rows.len()) as u8
    }
}

/// The body of a state below the root.
struct Body<'a> {
    table: &'a mut Table,
    random: &'a mut Random,
    own: u8,
    /// The states below the root are 1 to this.
    groups: u8,
}

impl Body<'_> {
    fn write(&mut self, links: &[(u8, u8)]) -> u16 {
        let mut commands = Vec::new();
        for &(from, to) in links {
            commands.push(self.link(from, to));
        }
        let mut body = self.ending();
        for command in commands.into_iter().rev() {
            body = self.table.sequence(command, body);
        }
        body
    }

    /// The label of one register comes to another by a value or by a condition.
    fn link(&mut self, from: u8, to: u8) -> u16 {
        let table = &mut self.table;
        let read = table.read(from);
        match self.random.below(6) {
            0 | 1 => table.assign(to, read),
            2 => {
                let other = self.random.below(table.registers.len()) as u8;
                let other = table.read(other);
                let sum = table.add(read, other);
                table.assign(to, sum)
            }
            3 => {
                let one = table.constant(1);
                let then = table.assign(to, one);
                let otherwise = table.skip();
                table.branch(read, then, otherwise)
            }
            4 => {
                let then = table.skip();
                let zero = table.constant(0);
                let otherwise = table.assign(to, zero);
                table.branch(read, then, otherwise)
            }
            // An if in an if, of which the outer one reads.
            _ => {
                let one = table.constant(1);
                let assign = table.assign(to, one);
                let skips = [table.skip(), table.skip()];
                let condition = table.constant(7);
                let inner = table.branch(condition, assign, skips[0]);
                table.branch(read, inner, skips[1])
            }
        }
    }

    /// At once, or by a condition over any register.
    fn ending(&mut self) -> u16 {
        if self.random.percent(50) {
            return self.leave();
        }
        let then = self.leave();
        let otherwise = self.leave();
        let register = self.random.below(self.table.registers.len()) as u8;
        let condition = self.table.read(register);
        self.table.branch(condition, then, otherwise)
    }

    /// Down to the child, to the state itself, or to one beside it.
    fn leave(&mut self) -> u16 {
        match self.random.below(3) {
            0 => self.table.fall(),
            1 => self.table.goto(self.own),
            _ => {
                let state = self.random.between(1, self.groups.into());
                self.table.goto(state as u8)
            }
        }
    }
}
