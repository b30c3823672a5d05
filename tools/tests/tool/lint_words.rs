//! `caisson lint` as one calls it: what it prints of texts and of tables, what it says of bad files, and its status.

use crate::common::{folder, path, said, text, BYTE_FAULT};
use caisson_tools::assemble;
use std::fs;
use std::process::Command;

/// The status, standard output and standard error.
fn lint(arguments: &[&str]) -> (Option<i32>, String, String) {
    said(&[&["lint"], arguments].concat())
}

/// In the order of the text, each with its line and a marker; a tab is kept.
#[test]
fn a_text_is_looked_over() {
    let folder = folder("linted");
    let file = format!("{folder}/slips.caisson");
    let source = "label low\nstate root : low { fall }\nregister spare : low = 3\n\
                  state s in root : low {\n\tf := f; f := 300;\n    if f == 256 then goto s else goto s\n}\n\
                  register f : low width 8 = 0\n";
    fs::write(&file, source).unwrap();
    let expected = format!(
        "{file}:3:10: warning: register `spare` is neither read nor assigned\n\
         \x20   register spare : low = 3\n\
         \x20            ^\n\
         {file}:5:2: warning: `f` is assigned to itself: nothing changes\n\
         \x20   \tf := f; f := 300;\n\
         \x20   \t^\n\
         {file}:5:10: warning: the constant 300 is too wide for `f`, which has 8 bits: 44 is stored\n\
         \x20   \tf := f; f := 300;\n\
         \x20   \t        ^\n\
         {file}:6:8: warning: the condition `f == 256` is always false (the left side is from 0 to 255, \
         the right side 256): what stands behind `then` never runs\n\
         \x20       if f == 256 then goto s else goto s\n\
         \x20          ^\n"
    );
    assert_eq!(lint(&[&file]), (Some(4), expected, String::new()));
    let table = format!("{folder}/slips.table");
    fs::write(&table, assemble(source).unwrap()).unwrap();
    let expected = format!(
        "{table}: register r0: warning: register `r0` is neither read nor assigned\n\
         {table}: state s1: warning: `r1` is assigned to itself: nothing changes\n\
         {table}: state s1: warning: the constant 300 is too wide for `r1`, which has 8 bits: 44 is stored\n\
         {table}: state s1: warning: the condition `r1 == 256` is always false (the left side is from 0 to 255, \
         the right side 256): what stands behind `then` never runs\n"
    );
    assert_eq!(lint(&[&table]), (Some(4), expected, String::new()));
}

/// The warnings of the designs that have some, by line and column; `designs/README.md` says why they stay.
#[test]
fn the_worked_designs() {
    for (name, places) in [
        ("deepest", vec!["8:10"]),
        ("diamond", vec![]),
        ("dosing", vec![]),
        ("duty_pumps", vec![]),
        ("guessed_raised", vec!["15:10"]),
        ("lease", vec![]),
        ("no_fall", vec!["16:7"]),
        ("port_read", vec![]),
        ("slot", vec![]),
        ("spare_children", vec!["14:10", "23:7", "24:7"]),
        (
            "spare_states",
            vec![
                "12:10", "18:7", "19:7", "20:7", "22:7", "24:7", "25:34", "26:7",
            ],
        ),
        ("spare_states_pruned", vec!["10:10", "19:34"]),
        ("tank", vec!["17:10"]),
        ("two_groups", vec![]),
        ("two_groups_edited", vec![]),
        ("two_groups_shared", vec![]),
        ("valves", vec!["15:10"]),
    ] {
        let (status, out, err) = lint(&[&format!("{name}.caisson")]);
        let start = format!("{name}.caisson:");
        let found = out.lines().filter_map(|line| {
            let place = line.strip_prefix(&start)?;
            Some(place.split(": ").next().unwrap())
        });
        assert_eq!(found.collect::<Vec<_>>(), places, "{name}");
        assert_eq!(err, "");
        match places.is_empty() {
            true => assert_eq!((status, out.as_str()), (Some(0), "no warnings\n")),
            false => assert_eq!(status, Some(4)),
        }
        let (table_status, out, _) = lint(&[&format!("{name}.table")]);
        assert_eq!(table_status, status);
        let lines = out.lines().filter(|line| line.contains(": warning: "));
        assert_eq!(lines.count(), places.len(), "{name}");
    }
}

/// Of the example in the tool's README, which is called beside `designs`.
#[test]
fn the_readme_shows_what_happens() {
    let readme = text("tools/README.md");
    let (_, shown) = readme.split_once("$ caisson lint ").expect("an example");
    let (file, shown) = shown.split_once('\n').unwrap();
    let (shown, _) = shown.split_once("```").unwrap();
    let mut command = Command::new(env!("CARGO_BIN_EXE_caisson"));
    command.args(["lint", file]).current_dir(path(""));
    let output = command.output().unwrap();
    assert_eq!(String::from_utf8(output.stdout).unwrap(), shown);
    assert_eq!(output.status.code(), Some(4));
}

/// Nothing else is said of it.
#[test]
fn a_refused_design_is_not_looked_over() {
    for (file, number, command) in [
        ("leak.caisson", 10, "check"),
        ("leak.table", 10, "explain"),
        ("low_child.caisson", 9, "check"),
        ("cut_short.table", 1, "explain"),
        ("register_kind.table", 3, "explain"),
    ] {
        let words = format!(
            "{file}: the design is refused by {number}; `caisson {command} {file}` says why\n"
        );
        assert_eq!(lint(&[file]), (Some(1), words, String::new()));
    }
}

#[test]
fn bad_inputs() {
    let folder = folder("linted_bad");
    let file = |name: &str| format!("{folder}/{name}");
    fs::write(
        file("wrong.caisson"),
        "label low\nstate root : low { fall }\nstate s in root : low { goto  }\n",
    )
    .unwrap();
    fs::write(file("empty.caisson"), "").unwrap();
    fs::write(file("bytes.caisson"), b"label \xff").unwrap();
    fs::write(file("control.caisson"), "label low\nstate \u{14}").unwrap();
    for (name, words) in [
        (
            "counter.caisson".to_string(),
            ": is a gate table; only designs are looked over",
        ),
        (
            "gates_cut_short.table".to_string(),
            ": is a gate table; only designs are looked over",
        ),
        (
            "none.caisson".to_string(),
            ": No such file or directory (os error 2)",
        ),
        (
            "none.table".to_string(),
            ": No such file or directory (os error 2)",
        ),
        (folder.clone(), ": Is a directory (os error 21)"),
        (
            file("wrong.caisson"),
            ":3:31: expected the name of a state, found `}`\n    state s in root : low { goto  }\n    \
             \x20                             ^",
        ),
        (
            file("empty.caisson"),
            ":1:1: expected at least one label, found the end of the text\n    \n    ^",
        ),
        (file("bytes.caisson"), BYTE_FAULT),
        (
            file("control.caisson"),
            ":2:7: expected a name, a number or a symbol, found U+0014\n    state \u{fffd}\n          ^",
        ),
    ] {
        let expected = format!("{name}{words}\n");
        assert_eq!(lint(&[&name]), (Some(2), String::new(), expected));
    }
}

#[test]
fn other_arguments_give_the_usage() {
    for arguments in [&[][..], &["lease.caisson", "lease.table"]] {
        let (status, out, err) = lint(arguments);
        assert_eq!((status, out.as_str()), (Some(2), ""));
        assert!(err.contains("caisson lint FILE\n"), "{err}");
    }
}
