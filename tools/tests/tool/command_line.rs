//! The tool as one calls it.

use crate::common::path;
use std::fs;
use std::process::{Command, Output};

fn caisson(arguments: &[&str]) -> Output {
    let mut command = Command::new(env!("CARGO_BIN_EXE_caisson"));
    command.args(arguments).current_dir(path("designs"));
    command.output().unwrap()
}

fn out(output: &Output) -> String {
    String::from_utf8(output.stdout.clone()).unwrap()
}

fn failure(output: &Output) -> String {
    assert_eq!(output.status.code(), Some(2));
    assert!(output.stdout.is_empty());
    String::from_utf8(output.stderr.clone()).unwrap()
}

#[test]
fn assemble_writes_the_table() {
    let table = format!("{}/assembled.table", env!("CARGO_TARGET_TMPDIR"));
    let output = caisson(&["assemble", "lease.caisson", &table]);
    assert_eq!(output.status.code(), Some(0));
    assert_eq!(
        fs::read(&table).unwrap(),
        crate::common::bytes("designs/lease.table")
    );
}

#[test]
fn assemble_says_where_a_text_is_wrong() {
    let source = format!("{}/wrong.caisson", env!("CARGO_TARGET_TMPDIR"));
    let table = format!("{}/wrong.table", env!("CARGO_TARGET_TMPDIR"));
    fs::write(&source, "label low\nstate root : high { fall }\n").unwrap();
    let message = failure(&caisson(&["assemble", &source, &table]));
    assert_eq!(message, format!("{source}{}\n", crate::common::HIGH_FAULT));
    assert!(fs::metadata(&table).is_err());
}

/// Neither under its own name, nor through another path, a symbolic or a hard link.
#[test]
fn assemble_keeps_its_source() {
    let folder = format!("{}/kept", env!("CARGO_TARGET_TMPDIR"));
    let _ = fs::remove_dir_all(&folder);
    fs::create_dir_all(&folder).unwrap();
    let source = format!("{folder}/kept.caisson");
    let (symbolic, hard) = (format!("{folder}/symbolic"), format!("{folder}/hard"));
    let text = crate::common::text("designs/lease.caisson");
    fs::write(&source, &text).unwrap();
    std::os::unix::fs::symlink("kept.caisson", &symbolic).unwrap();
    fs::hard_link(&source, &hard).unwrap();
    let around = format!("{folder}/../kept/kept.caisson");
    for table in [&source, &around, &symbolic, &hard] {
        let message = failure(&caisson(&["assemble", &source, table]));
        let expected = format!("{table}: is the source itself, and would be lost\n");
        assert_eq!(message, expected);
        assert_eq!(fs::read_to_string(&source).unwrap(), text);
    }
    // A file that is there and is another is written as ever.
    let table = format!("{folder}/other.table");
    fs::write(&table, "old").unwrap();
    assert_eq!(
        caisson(&["assemble", &symbolic, &table]).status.code(),
        Some(0)
    );
    assert_eq!(
        fs::read(&table).unwrap(),
        crate::common::bytes("designs/lease.table")
    );
}

#[test]
fn print_gives_numbers() {
    let table = format!("{}/unnamed.table", env!("CARGO_TARGET_TMPDIR"));
    fs::write(&table, crate::common::bytes("designs/lease.table")).unwrap();
    let output = caisson(&["print", &table]);
    assert_eq!(output.status.code(), Some(0));
    let expected = "label l0 -> l1\nlabel l1\n\nregister r0 : l0 = 3\nport r1 : l1 = 0\n\n\
                    state s0 : l0 { fall }\n\
                    state s1 in s0 : l0 { r0 := 3; goto s2 }\n\
                    state s2 in s0 : l0 { r0 := r0 - 1; if r0 then fall else goto s1 }\n\
                    state s3 in s2 : l1 { if r1 then goto s4 else goto s3 }\n\
                    state s4 in s2 : l1 { goto s3 }\n";
    assert_eq!(out(&output), expected);
}

#[test]
fn print_says_why_it_cannot() {
    let message = failure(&caisson(&["print", "cut_short.table"]));
    let expected = "cut_short.table: cannot be cut into records: \
                    the sections end at 235, the image at 234\n";
    assert_eq!(message, expected);
}

#[test]
fn explain_accepts() {
    for design in ["lease.table", "lease.caisson"] {
        let output = caisson(&["explain", design]);
        assert_eq!(
            (output.status.code(), out(&output).as_str()),
            (Some(0), "accepted\n")
        );
    }
}

/// Each refusal names the place and shows what stands there.
#[test]
fn explain_shows_the_place() {
    for (table, number, shown) in [
        ("cut_short", 1, "    20,4 24,14 38,45 83,104 187,48\n"),
        ("no_lattice", 2, "Label 1, row 2:\n    label l1\n"),
        (
            "no_lattice",
            2,
            "Because:\n    l1 and l2 have no least common label above them\n",
        ),
        (
            "register_kind",
            3,
            "Register 0:\n    [kind 2] r0 : l0 = 3\n\nBecause:\n    kind 2 is neither 0 (inner) nor 1 (port)\n",
        ),
        (
            "register_width",
            3,
            "Register 1:\n    port r1 : l1 [width 33] = 0\n\nBecause:\n    width 33 is not from 1 to 32\n",
        ),
        (
            "wide_reset",
            3,
            "Because:\n    reset value 2 is too large: width 1 holds 0 to 1\n",
        ),
        (
            "own_parent",
            4,
            "State 1:\n    state s1 in s1 : l0 { goto s1 }\n",
        ),
        (
            "command_kind",
            5,
            "    [command 0: bytes 6 0 0 0 0 0 0 0]\n",
        ),
        (
            "expression_kind",
            5,
            "    [expression 3: bytes 12 0 1 0 2 0 0 0]\n\nIn the body of state 2:\n",
        ),
        (
            "shared_command",
            6,
            "    state s0 : l0 { fall }\n\nUsed by: state 0, state 1\n",
        ),
        (
            "too_deep",
            7,
            "Expression 128 (bytes 2 0 126 0 127 0 0 0):\n    0 + 1 + 1",
        ),
        (
            "no_transfer",
            8,
            "    state s2 in s0 : l0 { r0 := r0 + 1 }\n",
        ),
        ("no_transfer", 8, "Because:\n    state s2 does not transfer"),
        (
            "low_child",
            9,
            "    state s2 in s1 : l0 { goto s2 }\n\nIts parent:\n    state s1 in s0 : l1 { fall }\n\nBecause:\n",
        ),
        (
            "spare_default",
            9,
            "Because:\n    s2 : l1 holds a fall: command 6\n    s3 : l0 is its default child, the lowest-numbered\n    \
             s2 : l1 does not flow to s3 : l0\n",
        ),
        (
            "leak",
            10,
            "Because:\n    r1 : l1 does not flow to r0 : l0\n",
        ),
        (
            "secret_goto",
            11,
            "Because:\n    r0 : l1 does not flow to s2 : l0\n",
        ),
        (
            "secret_fall",
            12,
            "Because:\n    r0 : l1 does not flow to s1 : l0\n",
        ),
        (
            "port_assigned",
            16,
            "Command 1 (bytes 1 0 0 0 0 0 0 0):\n    r0 := 0\n\nIn the body of state 1:\n",
        ),
        ("port_assigned", 16, "Because:\n    r0 is a port\n"),
        (
            "port_argument",
            16,
            "    goto s2(r2)\n\nIn the body of state 1:\n",
        ),
        (
            "port_argument",
            16,
            "Because:\n    r2 is a port, and is given to s2\n",
        ),
        (
            "default_parameter",
            19,
            "State 1:\n    state s1(p0 : l0..l1) in s0 : p0 { p0 := p0 + 1; goto s1(r0) }\n",
        ),
        (
            "default_parameter",
            19,
            "Because:\n    s1 is the default child of s0, and a default child has no parameters\n",
        ),
        (
            "parameter_count",
            19,
            "Because:\n    count 3: a state has at most 2 parameters\n",
        ),
        (
            "outside_bounds",
            19,
            "Command 2 (bytes 4 2 1 0 0 0 0 0):\n    goto s2(r1)\n\nIn the body of state 1:\n",
        ),
        (
            "outside_bounds",
            19,
            "Because:\n    r1 : l1 does not lie within p0 : l0..l0 of s2\n",
        ),
        (
            "one_choice",
            10,
            "Because:\n    s3 : p0 does not flow to r1 : l0 where p0 is l1\n    \
             p0 : l0..l1 does not flow to r1 : l0 where p0 is l1\n",
        ),
    ] {
        let output = caisson(&["explain", &format!("{table}.table")]);
        assert_eq!(output.status.code(), Some(1), "{table}");
        let text = out(&output);
        assert!(
            text.starts_with(&format!("refused by {number} at place ")),
            "{text}"
        );
        assert!(text.contains(shown), "{text}");
    }
}

/// The name's ending tells a text from a table.
#[test]
fn explain_points_into_a_text() {
    let output = caisson(&["explain", "reading_order.table"]);
    assert_eq!(output.status.code(), Some(1));
    assert!(!out(&output).contains("In the text"));
    let output = caisson(&["explain", "high_timer.caisson"]);
    assert_eq!(output.status.code(), Some(1));
    let line = "\nIn the text, line 14, column 5:\n        timer := timer - 1;\n        ^\n";
    assert!(out(&output).ends_with(line), "{}", out(&output));
}

/// In the assembler's words.
#[test]
fn explain_says_where_a_text_is_wrong() {
    let source = format!("{}/no_design.caisson", env!("CARGO_TARGET_TMPDIR"));
    let table = format!("{}/no_design.table", env!("CARGO_TARGET_TMPDIR"));
    for text in [
        &b"label low\nstate root : low { fell }\n"[..],
        b"label \xff",
    ] {
        fs::write(&source, text).unwrap();
        let message = failure(&caisson(&["explain", &source]));
        assert!(message.starts_with(&format!("{source}:")), "{message}");
        assert_eq!(message, failure(&caisson(&["assemble", &source, &table])));
    }
    // Under any other name it is a table, and none that the library takes, unless it is a text by its bytes.
    fs::write(&table, b"label \0").unwrap();
    let output = caisson(&["explain", &table]);
    assert_eq!(output.status.code(), Some(1));
    assert!(out(&output).starts_with("refused by 1 at place 0\n"));
}

#[test]
fn other_arguments_give_the_usage() {
    assert!(failure(&caisson(&[])).starts_with("usage: caisson assemble SOURCE TABLE\n"));
    assert!(failure(&caisson(&["print"])).starts_with("usage: "));
    assert!(failure(&caisson(&["upgrade", "lease.table"])).starts_with("usage: "));
    assert!(failure(&caisson(&["print", "none.table"])).starts_with("none.table: "));
}
