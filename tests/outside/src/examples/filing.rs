//! Request E12: designs, and their filing forms, which are written out node by node.

use crate::designs::{lease, smallest};
use crate::reference::image::{FALL, IF, READ};
use crate::table::Table;

pub struct Filing {
    pub sentence: &'static str,
    pub table: Table,
    pub form: Table,
}

pub fn all() -> Vec<Filing> {
    let mut examples = unchanged();
    examples.extend([states(), first_part(), whole(), branches()]);
    examples.extend([expressions(), conditions(), operands(), fields()]);
    examples
}

fn unchanged() -> Vec<Filing> {
    let same = |sentence, table: Table| Filing {
        sentence,
        form: table.clone(),
        table,
    };
    vec![
        same("file: the smallest design is its form", smallest()),
        same("file: the lease design is its form", lease()),
    ]
}

/// The port r0 and the inner registers r1 and r2; the root and three siblings below it, with these bodies.
fn design(bodies: [u16; 4], commands: &[[u16; 5]], expressions: &[[u16; 5]]) -> Table {
    let mut table = Table::new(&[1]);
    table.port(0, 0, 32);
    table.inner(0, 0, 8);
    table.inner(0, 0, 32);
    for body in bodies {
        table.state(0, 0, body);
    }
    for &[kind, which, a, b, c] in commands {
        table.command(kind as u8, which as u8, a, b, c);
    }
    for &[kind, which, a, b, c] in expressions {
        table.expression(kind as u8, which as u8, a, b, c);
    }
    table
}

const FALLS: [u16; 5] = [FALL as u16, 0, 0, 0, 0];

const fn goes(state: u16) -> [u16; 5] {
    [4, state, 0, 0, 0]
}

const fn assigns(register: u16, expression: u16) -> [u16; 5] {
    [1, register, expression, 0, 0]
}

const fn both(first: u16, second: u16) -> [u16; 5] {
    [2, 0, first, second, 0]
}

const fn either(condition: u16, then: u16, otherwise: u16) -> [u16; 5] {
    [IF as u16, 0, condition, then, otherwise]
}

const fn reads(register: u16) -> [u16; 5] {
    [READ as u16, register, 0, 0, 0]
}

/// Below 65,536.
const fn constant(value: u16) -> [u16; 5] {
    [0, 0, 0, value, 0]
}

const fn subtracts(left: u16, right: u16) -> [u16; 5] {
    [3, 0, left, right, 0]
}

fn states() -> Filing {
    Filing {
        sentence: "file: nodes are numbered state by state",
        table: design([3, 0, 2, 1], &[goes(2), goes(1), goes(3), FALLS], &[]),
        form: design([0, 1, 2, 3], &[FALLS, goes(2), goes(3), goes(1)], &[]),
    }
}

/// r1 := 7; goto 2
fn first_part() -> Filing {
    Filing {
        sentence: "file: the first part has the first number",
        table: design(
            [4, 3, 2, 5],
            &[goes(2), assigns(1, 0), goes(3), both(1, 0), FALLS, goes(1)],
            &[constant(7)],
        ),
        form: design(
            [0, 3, 4, 5],
            &[FALLS, assigns(1, 0), goes(2), both(1, 2), goes(3), goes(1)],
            &[constant(7)],
        ),
    }
}

/// (r1 := 7; r2 := 8); goto 2, and r1 := 9; (r2 := 10; goto 3)
fn whole() -> Filing {
    Filing {
        sentence: "file: the parts stand right below the whole",
        table: design(
            [0, 9, 10, 11],
            &[
                FALLS,
                assigns(1, 0),
                assigns(2, 1),
                goes(2),
                assigns(1, 2),
                assigns(2, 3),
                goes(3),
                both(1, 2),
                both(5, 6),
                both(7, 3),
                both(4, 8),
                goes(1),
            ],
            &[constant(7), constant(8), constant(9), constant(10)],
        ),
        form: design(
            [0, 5, 10, 11],
            &[
                FALLS,
                assigns(1, 0),
                assigns(2, 1),
                both(1, 2),
                goes(2),
                both(3, 4),
                assigns(1, 2),
                assigns(2, 3),
                goes(3),
                both(7, 8),
                both(6, 9),
                goes(1),
            ],
            &[constant(7), constant(8), constant(9), constant(10)],
        ),
    }
}

/// if r0 then goto 3 else goto 2
fn branches() -> Filing {
    Filing {
        sentence: "file: of an if the branch taken where the condition holds is the first part",
        table: design(
            [0, 3, 4, 5],
            &[FALLS, goes(2), goes(3), either(0, 2, 1), goes(3), goes(1)],
            &[reads(0)],
        ),
        form: design(
            [0, 3, 4, 5],
            &[FALLS, goes(3), goes(2), either(0, 1, 2), goes(3), goes(1)],
            &[reads(0)],
        ),
    }
}

/// r1 := 7; goto 2, and r1 := 8; goto 3: the commands are as in the form.
fn expressions() -> Filing {
    let commands = |first, second| {
        [
            FALLS,
            assigns(1, first),
            goes(2),
            both(1, 2),
            assigns(1, second),
            goes(3),
            both(4, 5),
            goes(1),
        ]
    };
    Filing {
        sentence: "file: expressions stand in the order of the commands that use them",
        table: design([0, 3, 6, 7], &commands(1, 0), &[constant(8), constant(7)]),
        form: design([0, 3, 6, 7], &commands(0, 1), &[constant(7), constant(8)]),
    }
}

/// if r0 then (r1 := 7; goto 2) else (r1 := 8; goto 3)
fn conditions() -> Filing {
    let commands = |condition, then, otherwise| {
        [
            FALLS,
            assigns(1, then),
            goes(2),
            both(1, 2),
            assigns(1, otherwise),
            goes(3),
            both(4, 5),
            either(condition, 3, 6),
            goes(3),
            goes(1),
        ]
    };
    Filing {
        sentence: "file: an if has a higher number than its branches, and so has its condition",
        table: design(
            [0, 7, 8, 9],
            &commands(0, 1, 2),
            &[reads(0), constant(7), constant(8)],
        ),
        form: design(
            [0, 7, 8, 9],
            &commands(2, 0, 1),
            &[constant(7), constant(8), reads(0)],
        ),
    }
}

/// r1 := (r2 - 5) - (r0 - r2); goto 2
fn operands() -> Filing {
    let commands = |value| {
        [
            FALLS,
            assigns(1, value),
            goes(2),
            both(1, 2),
            goes(3),
            goes(1),
        ]
    };
    Filing {
        sentence: "file: of an operation the first operand is the first part",
        table: design(
            [0, 3, 4, 5],
            &commands(6),
            &[
                reads(0),
                reads(2),
                reads(2),
                constant(5),
                subtracts(0, 1),
                subtracts(2, 3),
                subtracts(5, 4),
            ],
        ),
        form: design(
            [0, 3, 4, 5],
            &commands(6),
            &[
                reads(2),
                constant(5),
                subtracts(0, 1),
                reads(0),
                reads(2),
                subtracts(3, 4),
                subtracts(2, 5),
            ],
        ),
    }
}

/// State 2 takes a register: goto 2 with r1, and r64 := 1; goto 3.
fn fields() -> Filing {
    let taking = |bodies, commands: &[[u16; 5]], expressions: &[[u16; 5]]| {
        let mut table = design(bodies, commands, expressions);
        table.takes(2, &[(0, 0)]);
        table
    };
    let go_with = [4, 2, 1, 0, 0];
    Filing {
        sentence: "file: arguments, registers and constants are no nodes",
        table: taking(
            [5, 4, 3, 2],
            &[goes(3), assigns(64, 0), goes(1), both(1, 0), go_with, FALLS],
            &[constant(1)],
        ),
        form: taking(
            [0, 1, 4, 5],
            &[FALLS, go_with, assigns(64, 0), goes(3), both(2, 3), goes(1)],
            &[constant(1)],
        ),
    }
}
