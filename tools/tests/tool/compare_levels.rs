//! Which bodies are the same, and for which levels nothing changes where some are not.

use crate::common::{text, with_body};
use crate::from_the_end::from_the_end;
use caisson_tests::generate::random::Random;
use caisson_tests::generate::{any_design, design as generated, Size};
use caisson_tests::reference::listing;
use caisson_tools::compare::compare;
use caisson_tools::{assemble, library, print, read, Table};

/// The design of a text, which the library accepts.
fn accepted(source: &str) -> Table {
    let image = assemble(source).unwrap_or_else(|fault| panic!("{fault}\n{source}"));
    assert_eq!(library::check(&image).number, 0, "{source}");
    read(&image).unwrap()
}

/// A design of the folder, and the same with pieces of its text replaced.
fn edited(name: &str, edits: &[(&str, &str)]) -> [Table; 2] {
    let old = text(&format!("designs/{name}.caisson"));
    let mut new = old.clone();
    for (from, to) in edits {
        assert!(new.contains(from), "{name}: {from}");
        new = new.replace(from, to);
    }
    [accepted(&old), accepted(&new)]
}

fn unchanged([old, new]: &[Table; 2]) -> Vec<u8> {
    let comparison = compare(old, new);
    let levels = 0..old.rows.len() as u8;
    levels
        .filter(|&level| comparison.unchanged(level))
        .collect()
}

fn said([old, new]: &[Table; 2]) -> String {
    compare(old, new).words(None)
}

/// Kinds, registers, constants, operators and nesting: no two of these are the same.
#[test]
fn all_of_a_body_counts() {
    let bodies = [
        "goto s",
        "skip; goto s",
        "a := b; goto s",
        "a := 1; goto s",
        "a := 65537; goto s",
        "a := b + 1; goto s",
        "a := b + 2; goto s",
        "a := b - 1; goto s",
        "a := 1 + b; goto s",
        "a := c + 1; goto s",
        "b := b + 1; goto s",
        "a := b + 1 + 1; goto s",
        "a := b + (1 + 1); goto s",
        "a := -1 <$ b; goto s",
        "a := -1 < b; goto s",
        "a := b + 1; skip; goto s",
        "skip; a := b + 1; goto s",
        "{ skip; a := b + 1 }; goto s",
        "if a then goto s else { skip; goto s }",
        "if a then { skip; goto s } else goto s",
        "if b then goto s else { skip; goto s }",
    ];
    for one in bodies {
        for other in bodies {
            let pair = [one, other].map(|body| accepted(&with_body(body)));
            let expected: &[u8] = if one == other { &[0] } else { &[] };
            assert_eq!(unchanged(&pair), expected, "{one} and {other}");
        }
    }
}

/// The state that a goto names, and each of its arguments.
#[test]
fn gotos_count() {
    let two_groups = [("goto second_a else", "goto second_b else")];
    let exchanged = [("works(standby, duty)", "works(duty, standby)")];
    let first = [("works(south_1, south_2)", "works(south_2, south_2)")];
    let second = [("works(south_1, south_2)", "works(south_1, south_1)")];
    for (name, edits, state) in [
        ("two_groups", two_groups, 7),
        ("duty_pumps", exchanged, 2),
        ("duty_pumps", first, 1),
        ("duty_pumps", second, 1),
    ] {
        let words = said(&edited(name, &edits));
        let expected = format!("bodies differ in:\n    state {state}, label 0\n\n");
        assert!(words.contains(&expected), "{words}");
    }
}

/// "At or below" is "flows to": what is not at or below a level need not be above it.
#[test]
fn levels_are_those_of_the_lattice() {
    for (from, to, levels, state, label) in [
        ("cycle + 1 & 3", "cycle + 1 & 7", &[][..], 0, 0),
        (":= left_reading", ":= 7", &[0, 2], 4, 1),
        ("right_reading & 1", "right_reading & 3", &[0, 1], 5, 2),
        ("left_most | right", "left_most ^ right", &[0, 1, 2], 6, 3),
    ] {
        let pair = edited("diamond", &[(from, to)]);
        assert_eq!(unchanged(&pair), levels, "{from}");
        let said = said(&pair);
        let mut expected = format!("bodies differ in:\n    state {state}, label {label}\n\n");
        for level in 0..4 {
            expected += &format!("Level {level}: ");
            expected += &match levels.contains(&level) {
                true => "nothing changes.\n".to_string(),
                false => format!(
                    "the theorem says nothing. State {state} has another body, and its label is at or below it.\n"
                ),
            };
        }
        assert!(said.contains(&expected), "{said}");
    }
}

/// The label of a parameter excepts no body, for no level.
#[test]
fn parameters_except_nothing() {
    let group_a = "{ if data == 0 then goto group_b else goto group_a }";
    let pair = edited("two_groups_shared", &[(group_a, "{ goto group_a }")]);
    assert_eq!(unchanged(&pair), []);
    let why = "the theorem says nothing. State 3 has another body, and its label is that of a parameter: such a \
               body has to be the same for every level.\n";
    let expected = format!("    state 3, label of parameter 0\n\nLevel 0: {why}Level 1: {why}");
    let words = said(&pair);
    assert!(words.contains(&expected), "{words}");

    let pair = edited(
        "two_groups_shared",
        &[
            ("fall }\nstate choose", "skip; fall }\nstate choose"),
            ("timer := 3", "timer := 4"),
            ("timer := timer - 1", "timer := timer - 2"),
            ("data == 0", "data == 1"),
        ],
    );
    let expected = "Level 1: the theorem says nothing. States 0, 1 and 2 have other bodies, and their labels are at \
                    or below it. States 3 and 4 have other bodies, and their labels are those of parameters: such \
                    bodies have to be the same for every level.\n";
    let words = said(&pair);
    assert!(words.contains(expected), "{words}");
}

/// The states as they are printed, which shows no numbers of nodes.
fn printed(table: &Table) -> Vec<String> {
    let text = print(table);
    let states = text.split("\nstate ").skip(1);
    states.map(|state| state.trim_end().to_string()).collect()
}

/// The same design with its nodes numbered anew and up to two other constants, which the library accepts too.
fn other_constants(image: &[u8], random: &mut Random) -> [Table; 2] {
    let (old, mut new) = (read(image).unwrap(), read(&from_the_end(image).0).unwrap());
    let nodes = 0..new.expressions.len();
    let constants: Vec<usize> = nodes
        .filter(|&node| new.expressions[node].kind == 0)
        .collect();
    for _ in 0..random.below(3).min(constants.len()) {
        new.expressions[*random.pick(&constants)].b ^= 1;
    }
    for table in [&old, &new] {
        assert_eq!(library::check(&table.image()).number, 0);
    }
    [old, new]
}

fn at_or_below(table: &Table, label: u8, level: u8) -> bool {
    table.rows[usize::from(label)] >> level & 1 == 1
}

/// Bodies of random designs differ where prints do.
#[test]
fn random_edits_are_found() {
    let mut random = Random::new(14);
    let (mut edits, mut some_levels) = (0, 0);
    for round in 0..200 {
        let size = Size::random(&mut random);
        let image = any_design(&mut random, size).image();
        let pair = other_constants(&image, &mut random);
        let [old, new] = &pair;
        let states = printed(old).into_iter().zip(printed(new)).enumerate();
        let labels: Vec<u8> = states
            .filter(|(_, (one, other))| one != other)
            .map(|(state, _)| old.states[state].label)
            .collect();
        let excepted = |level: u8| {
            let mut labels = labels.iter();
            labels.all(|&label| label < 16 && !at_or_below(old, label, level))
        };
        let levels: Vec<u8> = (0..old.rows.len() as u8)
            .filter(|&level| excepted(level))
            .collect();
        edits += usize::from(!labels.is_empty());
        some_levels += usize::from(!levels.is_empty() && !labels.is_empty());
        assert_eq!(unchanged(&pair), levels, "round {round}");
    }
    assert!(edits > 50 && some_levels > 20, "{edits} {some_levels}");
}

/// What a level sees of cycles from reset, by the independent implementation, of a design without parameters.
fn seen(table: &Table, level: u8) -> Vec<String> {
    let lines = String::from_utf8(listing(&[&[60, 0], &table.image()[..]].concat())).unwrap();
    let line = |line: &str| {
        let fields: Vec<&str> = line.split(';').collect();
        let states = fields[1].split(' ').filter(|state| {
            let state: usize = state.parse().unwrap();
            at_or_below(table, table.states[state].label, level)
        });
        let values = fields[2].split(' ').zip(&table.registers);
        let values = values.filter(|(_, register)| at_or_below(table, register.label, level));
        let values: Vec<&str> = values.map(|(value, _)| value).collect();
        format!(
            "{};{}",
            states.collect::<Vec<_>>().join(" "),
            values.join(" ")
        )
    };
    lines.lines().skip(1).map(line).collect()
}

/// The constants in a body.
fn constants(table: &Table, body: u16) -> Vec<usize> {
    let (mut commands, mut expressions, mut constants) = (vec![body], vec![], vec![]);
    while let Some(number) = commands.pop() {
        let node = table.commands[usize::from(number)];
        match node.kind {
            1 => expressions.push(node.a),
            2 => commands.extend([node.a, node.b]),
            5 => {
                expressions.push(node.a);
                commands.extend([node.b, node.c]);
            }
            _ => {}
        }
    }
    while let Some(number) = expressions.pop() {
        let node = table.expressions[usize::from(number)];
        match node.kind {
            0 => constants.push(usize::from(number)),
            1 => {}
            _ => expressions.extend([node.a, node.b]),
        }
    }
    constants
}

/// Neighbours of a level change every constant of theirs. It sees equal cycles, whatever others see.
#[test]
fn random_edits_are_not_seen() {
    let mut random = Random::new(15);
    let mut hidden = 0;
    for round in 0..200 {
        let size = Size::random(&mut random);
        let image = generated(&mut random, size).image();
        let (old, mut new) = (read(&image).unwrap(), read(&image).unwrap());
        let level = random.index(old.rows.len()) as u8;
        for state in &old.states {
            if !at_or_below(&old, state.label, level) {
                for node in constants(&old, state.command) {
                    new.expressions[node].b ^= 1;
                }
            }
        }
        assert_eq!(library::check(&new.image()).number, 0);
        assert!(compare(&old, &new).unchanged(level), "round {round}");
        assert_eq!(seen(&old, level), seen(&new, level), "round {round}");
        let mut levels = 0..old.rows.len() as u8;
        hidden += usize::from(levels.any(|level| seen(&old, level) != seen(&new, level)));
    }
    assert!(hidden > 10, "{hidden}");
}
