//! Tables drawn that keep the rules or break any of them.

use crate::common::{bytes, designs, designs_alone, text};
use caisson_tools::draw::{draw_table, draw_text};
use caisson_tools::{gates, read, Table};

/// Of what is wrong in a table something is drawn, and nothing else stops it.
#[test]
fn every_design_is_drawn() {
    for name in designs_alone() {
        let drawing = draw_text(&text(&format!("designs/{name}.caisson"))).unwrap();
        sound(&drawing.graph);
    }
    for name in designs("table") {
        let image = bytes(&format!("designs/{name}.table"));
        if !gates::is_table(&image) && name != "cut_short" {
            sound(&draw_table(&image).unwrap().graph);
        }
    }
}

#[test]
fn changed_tables_are_drawn_or_refused_in_words() {
    let mut drawn = 0;
    for name in ["lease", "two_groups_shared"] {
        let image = bytes(&format!("designs/{name}.table"));
        for at in 20..image.len() {
            for byte in [0, 1, 2, 5, 17, 64, 65, 255] {
                let mut changed = image.clone();
                changed[at] = byte;
                match draw_table(&changed) {
                    Ok(drawing) => sound(&drawing.graph),
                    Err(why) => panic!("{why}"),
                }
                drawn += 1;
            }
        }
    }
    assert!(drawn > 4_000);
}

/// What a refused table names and does not have.
#[test]
fn what_is_missing_stands_in_brackets() {
    type Change = fn(&mut Table);
    let changes: [(Change, &str); 7] = [
        (
            |table| table.states[3].label = 9,
            "<b>s3</b><br/><i>[label 9]</i>",
        ),
        (
            |table| {
                let at = command(table, 4);
                table.commands[at].which = 9
            },
            "s9 [label=\"[state 9]\", style=dashed];",
        ),
        (
            |table| {
                let at = command(table, 1);
                table.commands[at].which = 63
            },
            "sets [register 63]</font>",
        ),
        (
            |table| {
                let at = command(table, 1);
                table.commands[at].which = 64
            },
            "sets [parameter 0]</font>",
        ),
        (
            |table| {
                let at = command(table, 5);
                table.commands[at].a = 99
            },
            "s2 falls if [expression 99]\"",
        ),
        (
            |table| table.states.truncate(3),
            "nothing2 [label=\"no child\", style=dashed];",
        ),
        // A parent that does not come before it: the state stands outside all frames.
        (
            |table| table.states[1].parent = 4,
            "\n    s1 [label=<<b>s1</b>",
        ),
    ];
    let lease = read(&bytes("designs/lease.table")).unwrap();
    for (change, expected) in changes {
        let mut table = lease.clone();
        change(&mut table);
        let drawing = draw_table(&table.image()).unwrap();
        assert_ne!(drawing.answer.number, 0);
        sound(&drawing.graph);
        assert!(
            drawing.graph.contains(expected),
            "{expected}\n{}",
            drawing.graph
        );
    }
}

/// The number of the first command of a kind.
fn command(table: &Table, kind: u8) -> usize {
    let mut commands = table.commands.iter();
    commands.position(|command| command.kind == kind).unwrap()
}

/// Quotes, angle brackets and braces are closed, and each line is a statement.
fn sound(graph: &str) {
    let mut open = 0;
    for line in graph.lines() {
        assert!(line.ends_with([';', '{', '}']), "{line}");
        let mut quoted = false;
        let mut angles = 0;
        let mut before = ' ';
        for one in line.chars() {
            match one {
                '"' if before != '\\' => quoted = !quoted,
                '<' if !quoted => angles += 1,
                '>' if !quoted && before != '-' => angles -= 1,
                '{' if !quoted && angles == 0 => open += 1,
                '}' if !quoted && angles == 0 => open -= 1,
                _ => (),
            }
            before = one;
        }
        assert!(!quoted && angles == 0, "{line}");
    }
    assert_eq!(open, 0);
}
