//! Two designs compared: what is said of the worked pair, of other numbers and of other records.

use crate::common::{bytes, designs};
use crate::from_the_end::from_the_end;
use caisson_tests::reference::listing;
use caisson_tools::compare::compare;
use caisson_tools::{gates, library, read, Table};

fn design(name: &str) -> Table {
    read(&bytes(&format!("designs/{name}.table"))).unwrap()
}

const EQUAL: &str = "Labels, registers and state records are equal, apart from command numbers.\n";

const UNCHANGED: &str =
    "\nNothing changes: the level sees equal runs of both designs, from reset, for whole \
    lists of resets, port writes and runs that match at the level (request E14). They match where they have the \
    same resets, the same cycles and the same writes of ports at or below the level, in the same order.\n";

const NOT_SAID: &str =
    "The theorem of request E14 says nothing: what the level sees may change, or may stay as it was.\n";

#[test]
fn the_worked_pair_is_said() {
    let (old, new) = (design("two_groups"), design("two_groups_edited"));
    let comparison = compare(&old, &new);
    let bodies =
        "Apart from node numbers, bodies differ in:\n    state 4, label 1\n    state 5, label 1\n";
    let low = "Level 0: nothing changes.\n";
    let high = "Level 1: the theorem says nothing. States 4 and 5 have other bodies, and their labels are at or \
                below it.\n";
    for (level, expected) in [
        (None, format!("{low}{high}{UNCHANGED}{NOT_SAID}")),
        (Some(0), format!("{low}{UNCHANGED}")),
        (Some(1), format!("{high}\n{NOT_SAID}")),
    ] {
        let expected = format!("{EQUAL}{bodies}\n{expected}");
        assert_eq!(comparison.words(level), expected);
    }
    // The other way round the same is said.
    assert_eq!(compare(&new, &old).words(None), comparison.words(None));
}

/// What level 0 sees of a cycle: the walk without states 4 and 5, and the registers without 2.
fn seen_low(line: &str) -> String {
    let [cycle, walk, registers] = line.split(';').collect::<Vec<_>>()[..] else {
        panic!("{line}");
    };
    let walk = walk.split(' ').filter(|state| !["4", "5"].contains(state));
    let registers = registers.split(' ').enumerate();
    let registers = registers.filter(|(number, _)| *number != 2);
    let seen = walk.chain(registers.map(|(_, value)| value));
    format!("{cycle} {}", seen.collect::<Vec<_>>().join(" "))
}

/// By the independent implementation.
#[test]
fn the_worked_pair_runs_so() {
    let [old, new] = ["two_groups", "two_groups_edited"].map(|name| {
        let image = bytes(&format!("designs/{name}.table"));
        String::from_utf8(listing(&[&[100, 0], &image[..]].concat())).unwrap()
    });
    assert_ne!(old, new);
    let seen = |listing: &str| -> Vec<String> { listing.lines().skip(1).map(seen_low).collect() };
    assert_eq!(seen(&old).len(), 100);
    assert_eq!(seen(&old), seen(&new));
}

#[test]
fn numbers_of_nodes_do_not_count() {
    for name in designs("table") {
        let image = bytes(&format!("designs/{name}.table"));
        if gates::is_table(&image) || library::check(&image).number != 0 {
            continue;
        }
        let (old, new) = (design(&name), read(&from_the_end(&image).0).unwrap());
        assert!(old != new, "{name}");
        let bodies = "Bodies are the same in every state, apart from node numbers.\n\n";
        let levels = (0..old.rows.len()).map(|level| format!("Level {level}: nothing changes.\n"));
        let expected = format!("{EQUAL}{bodies}{}{UNCHANGED}", levels.collect::<String>());
        assert_eq!(compare(&old, &new).words(None), expected, "{name}");
    }
}

#[test]
fn command_numbers_do_not_count() {
    let old = design("lease");
    let mut new = old.clone();
    new.states[0].command = old.commands.len() as u16;
    new.commands
        .push(old.commands[usize::from(old.states[0].command)]);
    let comparison = compare(&old, &new);
    assert!(comparison.unchanged(0) && comparison.unchanged(1));
}

/// Each count and each field of a record by its name. The theorem then says nothing for any level.
#[test]
fn records_are_named() {
    let old = design("duty_pumps");
    type Change = fn(&mut Table);
    let changes: [(&str, Change); 17] = [
        ("labels: from 4 to 3", |new| new.rows.truncate(3)),
        ("labels: from 4 to 5", |new| new.rows.push(16)),
        ("registers: from 6 to 5", |new| new.registers.truncate(5)),
        ("states: from 4 to 3", |new| new.states.truncate(3)),
        (
            "label 1, row: from 10 (flows to 1, 3) to 14 (flows to 1, 2, 3)",
            |new| new.rows[1] = 14,
        ),
        ("register 2, label: from 1 to 3", |new| {
            new.registers[2].label = 3
        }),
        ("register 0, kind: from inner to port", |new| {
            new.registers[0].kind = 1
        }),
        ("register 5, reset value: from 0 to 7", |new| {
            new.registers[5].reset = 7
        }),
        ("register 1, width: from 3 to 4", |new| {
            new.registers[1].width = 4
        }),
        ("state 3, parent: from 2 to 1", |new| {
            new.states[3].parent = 1
        }),
        ("state 1, label: from 0 to 1", |new| new.states[1].label = 1),
        (
            "state 3, label: from that of parameter 0 to that of parameter 1",
            |new| new.states[3].label = 17,
        ),
        ("state 2, count of parameters: from 2 to 1", |new| {
            new.states[2].count = 1
        }),
        (
            "state 2, lower label of the first parameter: from 0 to 1",
            |new| new.states[2].bounds[0].lower = 1,
        ),
        (
            "state 2, upper label of the first parameter: from 3 to 2",
            |new| new.states[2].bounds[0].upper = 2,
        ),
        (
            "state 2, lower label of the second parameter: from 0 to 2",
            |new| new.states[2].bounds[1].lower = 2,
        ),
        (
            "state 2, upper label of the second parameter: from 3 to 0",
            |new| new.states[2].bounds[1].upper = 0,
        ),
    ];
    for (line, change) in changes {
        let mut new = old.clone();
        change(&mut new);
        let both = match old.states.len() == new.states.len() {
            true => "",
            false => " that both designs have",
        };
        let records = format!(
            "Apart from command numbers, the new design has other labels, registers or state records:\n    {line}\n\
             Bodies are the same in every state{both}, apart from node numbers.\n"
        );
        let comparison = compare(&old, &new);
        for (level, name) in [(None, "Every level"), (Some(2), "Level 2")] {
            let expected = format!(
                "{records}\n{name}: the theorem says nothing. It asks for equal labels, registers and state records: \
                 see above.\n\n{NOT_SAID}"
            );
            assert_eq!(comparison.words(level), expected);
        }
        assert!((0..4).all(|level| !comparison.unchanged(level)), "{line}");
    }
}

/// Of several records each has its line, in the order of the table, and bodies are said all the same.
#[test]
fn records_and_bodies_are_named() {
    let (old, new) = (design("two_groups"), design("lease"));
    let expected = "Apart from command numbers, the new design has other labels, registers or state records:\n\
                    \x20   registers: from 4 to 2\n\
                    \x20   states: from 8 to 5\n\
                    \x20   register 1, label: from 0 to 1\n\
                    \x20   register 1, kind: from inner to port\n\
                    \x20   state 3, parent: from 0 to 2\n\
                    \x20   state 3, label: from 0 to 1\n\
                    Apart from node numbers, bodies differ in:\n\
                    \x20   state 1, label 0\n\
                    \x20   state 2, label 0\n\
                    \x20   state 3, label from 0 to 1\n\
                    \x20   state 4, label 1\n\n\
                    Every level: the theorem says nothing. ";
    let words = compare(&old, &new).words(None);
    assert!(words.starts_with(expected), "{words}");
}
