//! Bodies that are longer than the library's depth: the assembler nests them anew, and print shows one list.

use crate::common::{bytes, on_large_stack, text, with_body};
use caisson_tools::{assemble, check::check, library, print, read, Table};

/// So many commands, the last of which is a goto.
fn list(count: usize) -> String {
    let assignments: Vec<String> = (1..count).map(|n| format!("a := {n}")).collect();
    [assignments, vec!["goto s".to_string()]]
        .concat()
        .join("; ")
}

fn table(body: &str) -> Table {
    read(&assemble(&with_body(body)).unwrap()).unwrap()
}

/// The depth of the last state's body, by rule 7.
fn depth(table: &Table) -> usize {
    fn of(table: &Table, number: u16) -> usize {
        let node = table.commands[usize::from(number)];
        match node.kind {
            2 => 1 + of(table, node.a).max(of(table, node.b)),
            5 => 1 + of(table, node.b).max(of(table, node.c)),
            _ => 1,
        }
    }
    of(table, table.states.last().unwrap().command)
}

/// Whether the second part of each sequence alone is one.
fn to_the_right(table: &Table) -> bool {
    let sequence = |number: u16| table.commands[usize::from(number)].kind == 2;
    let mut sequences = table.commands.iter().filter(|node| node.kind == 2);
    sequences.all(|node| !sequence(node.a))
}

/// The numbers that are assigned, in the order of the commands' numbers.
fn assigned(table: &Table) -> Vec<u16> {
    let assignments = table.commands.iter().filter(|node| node.kind == 1);
    assignments
        .map(|node| table.expressions[usize::from(node.a)].b)
        .collect()
}

/// Commands, depth, and whether it stays nested to the right. 64 commands have depth 64.
#[test]
fn long_lists_are_accepted() {
    for (count, expected, right) in [
        (1, 1, true),
        (2, 2, true),
        (63, 63, true),
        (64, 64, true),
        (65, 8, false),
        (66, 8, false),
        (128, 8, false),
        (129, 9, false),
        (256, 9, false),
        (257, 10, false),
        (500, 10, false),
        (511, 10, false),
    ] {
        let table = table(&list(count));
        assert_eq!(
            (depth(&table), to_the_right(&table)),
            (expected, right),
            "{count}"
        );
        // The numbers of assignments rise as one reads.
        assert_eq!(assigned(&table), (1..count as u16).collect::<Vec<_>>());
        assert_eq!(table.commands.len(), 2 * count - 1 + 1);
        assert_eq!(library::check(&table.image()).number, 0, "{count}");
    }
}

/// A list of n commands has n - 1 sequences, so that a table has room for 512.
#[test]
fn longer_lists_are_too_many_commands() {
    for count in [513, 1_000] {
        let fault = assemble(&with_body(&list(count))).unwrap_err().to_string();
        let expected = "expected at most 1024 commands, found one more";
        assert!(
            fault.ends_with(expected) && fault.lines().count() == 1,
            "{fault}"
        );
    }
}

fn ifs(depth: usize, inner: &str) -> String {
    (0..depth).fold(inner.to_string(), |inner, _| {
        format!("if a then {{ {inner} }} else skip")
    })
}

/// What is deep itself comes near the top: with `n` commands before and behind, an if of depth `d` makes the body as
/// deep as can be.
#[test]
fn deep_parts_come_near_the_top() {
    for (before, deep, behind, expected) in [
        (0, 63, 1, 64),
        (1, 62, 1, 64),
        (40, 62, 1, 64),
        (40, 60, 40, 62),
        (40, 50, 200, 52),
        (100, 7, 100, 10),
        (200, 61, 100, 63),
    ] {
        let skips = |count: usize| "skip; ".repeat(count);
        let deep = ifs(deep - 1, "b := 1");
        let body = format!("{}{deep}; {}goto s", skips(before), skips(behind - 1));
        let table = table(&body);
        assert_eq!(depth(&table), expected, "{before} {behind}");
        assert_eq!(library::check(&table.image()).number, 0);
    }
}

/// Within branches too, and in braces, which leave no trace then.
#[test]
fn lists_within_branches_are_nested_anew() {
    let branch = "b := b + 1; ".repeat(70) + "skip";
    let body = format!("if a then {{ {branch} }} else {{ {branch} }}; goto s");
    let image = assemble(&with_body(&body)).unwrap();
    assert_eq!(depth(&read(&image).unwrap()), 10);
    assert_eq!(library::check(&image).number, 0);
    let braces = list(100)
        .replace("a := 50; ", "a := 50; { ")
        .replace("a := 60; ", "a := 60 }; ");
    assert_eq!(table(&braces), table(&list(100)));
}

/// What nests too deep without its sequences is refused as ever.
#[test]
fn deep_ifs_stay_too_deep() {
    let body = format!("{}; goto s", ifs(64, "skip"));
    let words = check("x", &with_body(&body)).unwrap().words;
    assert!(words.starts_with("x:6:25: refused by 7: "), "{words}");
}

/// To the byte; where the text had other braces than the assembler, these stay.
#[test]
fn long_bodies_print_as_one_list() {
    on_large_stack(|| {
        for count in [64, 65, 66, 300, 500] {
            let image = assemble(&with_body(&list(count))).unwrap();
            let printed = print(&read(&image).unwrap());
            let (_, body) = printed.split_once("s1 in s0 : l0 {").unwrap();
            assert!(!body.contains('{'), "{body}");
            assert_eq!(body.matches(';').count(), count - 1);
            assert!(assemble(&printed).unwrap() == image, "{count}");
        }
        let halves = list(100).replace("a := 50; ", "a := 50 }; { ");
        let image = assemble(&with_body(&format!("{{ {halves} }}"))).unwrap();
        assert_eq!(depth(&read(&image).unwrap()), 51);
        let printed = print(&read(&image).unwrap());
        assert!(assemble(&printed).unwrap() == image, "{printed}");
    });
}

/// A table that nests a list to the left is refused by 7. Printed and assembled again it is accepted.
#[test]
fn lists_to_the_left_come_back_flat() {
    let left = |count: usize| {
        let commands = list(count);
        let mut commands = commands.split("; ");
        let first = commands.next().unwrap().to_string();
        commands.fold(first, |before, next| format!("{{ {before} }}; {next}"))
    };
    // Of a depth that is accepted the braces stay.
    let image = assemble(&with_body(&left(64))).unwrap();
    assert!(!to_the_right(&read(&image).unwrap()));
    assert!(assemble(&print(&read(&image).unwrap())).unwrap() == image);
    assert_eq!(table(&left(65)), table(&list(65)));
}

/// Their tables have been stored before any body was nested anew.
#[test]
fn the_deepest_designs_are_what_they_were() {
    for (name, number) in [("deepest", 0), ("too_deep", 7)] {
        let image = assemble(&text(&format!("designs/{name}.caisson"))).unwrap();
        assert!(image == bytes(&format!("designs/{name}.table")), "{name}");
        assert_eq!(library::check(&image).number, number, "{name}");
    }
}
