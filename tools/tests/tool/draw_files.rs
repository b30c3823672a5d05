//! `caisson draw` as one calls it: the files it reads and writes, what it says of bad ones, and its status.

use crate::common::{bytes, folder, said, text, BYTE_FAULT, HIGH_FAULT};
use caisson_tools::{read, Table};
use std::fs;

/// The status, standard output and standard error.
fn draw(arguments: &[&str]) -> (Option<i32>, String, String) {
    said(&[&["draw"], arguments].concat())
}

#[test]
fn a_graph_is_printed_or_written() {
    let folder = folder("drawn");
    let graph = text("docs/pictures/lease.dot");
    let said = draw(&["lease.caisson"]);
    assert_eq!(said, (Some(0), graph.clone(), String::new()));
    let out = format!("{folder}/lease.dot");
    fs::write(&out, "an older and longer text".repeat(1_000)).unwrap();
    let said = draw(&["lease.caisson", &out]);
    assert_eq!(said, (Some(0), String::new(), String::new()));
    assert_eq!(fs::read_to_string(&out).unwrap(), graph);
    assert_eq!(fs::read_dir(&folder).unwrap().count(), 1);
    let (status, numbered, err) = draw(&["valves.table"]);
    assert_eq!((status, err.as_str()), (Some(0), ""));
    assert!(numbered.contains("<b>s0</b><br/><i>l0</i>"));
}

#[test]
fn a_refused_design_is_drawn_with_a_note() {
    let (status, out, err) = draw(&["leak.caisson"]);
    assert_eq!(status, Some(0));
    assert!(out.starts_with("digraph design {\n") && out.ends_with("}\n"));
    let note = "leak.caisson: is drawn, but refused by 10 at place 1; `caisson explain leak.caisson` says why\n";
    assert_eq!(err, note);
}

/// Each with its words; nothing is printed, and nothing written.
#[test]
fn bad_inputs() {
    let folder = folder("drawn_bad");
    let file = |name: &str| format!("{folder}/{name}");
    let lease = read(&bytes("designs/lease.table")).unwrap();
    let images = [
        (
            "labels.table",
            Table {
                rows: vec![1; 17],
                ..lease.clone()
            },
        ),
        (
            "registers.table",
            Table {
                registers: vec![lease.registers[0]; 65],
                ..lease.clone()
            },
        ),
        (
            "states.table",
            Table {
                states: vec![lease.states[0]; 65],
                ..lease.clone()
            },
        ),
        (
            "commands.table",
            Table {
                commands: vec![lease.commands[0]; 1_025],
                ..lease.clone()
            },
        ),
        (
            "expressions.table",
            Table {
                expressions: vec![lease.expressions[0]; 2_049],
                ..lease.clone()
            },
        ),
        (
            "stateless.table",
            Table {
                states: Vec::new(),
                ..lease.clone()
            },
        ),
    ];
    for (name, table) in images {
        fs::write(file(name), table.image()).unwrap();
    }
    fs::write(file("empty.table"), "").unwrap();
    fs::write(
        file("wrong.caisson"),
        "label low\nstate root : high { fall }\n",
    )
    .unwrap();
    fs::write(file("bytes.caisson"), b"label \xff").unwrap();
    let old = "../tools/tests/data/lease_format_2.table".to_string();
    for (name, words) in [
        (
            "counter.caisson".to_string(),
            ": is a gate table; only designs are drawn",
        ),
        (
            "counter.table".to_string(),
            ": is a gate table; only designs are drawn",
        ),
        (
            "none.caisson".to_string(),
            ": No such file or directory (os error 2)",
        ),
        (
            "none.table".to_string(),
            ": No such file or directory (os error 2)",
        ),
        (
            "cut_short.table".to_string(),
            ": cannot be cut into records: the sections end at 235, the image at 234",
        ),
        (
            file("empty.table"),
            ": cannot be cut into records: a directory has 20 bytes, the image 0",
        ),
        (file("labels.table"), ": has 17 labels, and 16 are the most"),
        (
            file("registers.table"),
            ": has 65 registers, and 64 are the most",
        ),
        (file("states.table"), ": has 65 states, and 64 are the most"),
        (
            file("commands.table"),
            ": has 1025 commands, and 1024 are the most",
        ),
        (
            file("expressions.table"),
            ": has 2049 expressions, and 2048 are the most",
        ),
        (file("stateless.table"), ": has no states"),
        (file("wrong.caisson"), HIGH_FAULT),
        (file("bytes.caisson"), BYTE_FAULT),
        (
            old,
            ": is a table of format 2, whose state records have 4 bytes; \
             `caisson upgrade OLD NEW` makes one of format 3 from it",
        ),
    ] {
        let out = file("never.dot");
        for arguments in [vec![name.as_str()], vec![name.as_str(), &out]] {
            let said = draw(&arguments);
            let expected = format!("{name}{words}\n");
            assert_eq!(said, (Some(2), String::new(), expected));
        }
        assert!(fs::metadata(&out).is_err());
    }
}

#[test]
fn bad_outputs() {
    let folder = folder("drawn_nowhere");
    let design = format!("{folder}/own.caisson");
    let link = format!("{folder}/link.dot");
    fs::write(&design, text("designs/lease.caisson")).unwrap();
    std::os::unix::fs::symlink("own.caisson", &link).unwrap();
    let [other, table, nowhere] =
        ["other.caisson", "own.table", "none/own.dot"].map(|name| format!("{folder}/{name}"));
    let a_design =
        "is the name of a design; a drawing is a Graphviz text, whose name may end in .dot";
    for (out, words) in [
        (&design, "is the design itself, and would be lost"),
        (&link, "is the design itself, and would be lost"),
        (&other, a_design),
        (&table, a_design),
        (&nowhere, "No such file or directory (os error 2)"),
        (&folder, "Is a directory (os error 21)"),
    ] {
        let said = draw(&[&design, out]);
        let expected = format!("{out}: {words}\n");
        assert_eq!(said, (Some(2), String::new(), expected));
    }
    assert_eq!(
        fs::read_to_string(&design).unwrap(),
        text("designs/lease.caisson")
    );
    assert_eq!(fs::read_dir(&folder).unwrap().count(), 2);
}

#[test]
fn other_arguments_give_the_usage() {
    for arguments in [&[][..], &["lease.caisson", "lease.dot", "more"]] {
        let (status, out, err) = draw(arguments);
        assert_eq!((status, out.as_str()), (Some(2), ""));
        assert!(err.contains("caisson draw FILE [OUT]\n"), "{err}");
    }
}
