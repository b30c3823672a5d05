//! Gate tables on the command line: both kinds by the same commands.

use crate::common::{bytes, path};
use caisson_tools::gates;
use std::fs;
use std::process::{Command, Output};

fn caisson(arguments: &[&str]) -> Output {
    let mut command = Command::new(env!("CARGO_BIN_EXE_caisson"));
    command.args(arguments).current_dir(path("designs"));
    command.output().unwrap()
}

/// The status, standard output and standard error.
fn run(arguments: &[&str]) -> (Option<i32>, String, String) {
    let output = caisson(arguments);
    let text = |bytes| String::from_utf8(bytes).unwrap();
    (
        output.status.code(),
        text(output.stdout),
        text(output.stderr),
    )
}

const NO_DESIGN: &str =
    "is a gate table; only a design can be raised, pruned, filed, upgraded or compared";

/// A file of the tests' own folder.
fn made(name: &str) -> String {
    format!("{}/{name}", env!("CARGO_TARGET_TMPDIR"))
}

#[test]
fn assemble_writes_a_gate_table() {
    let table = made("counter.table");
    assert_eq!(run(&["assemble", "counter.caisson", &table]).0, Some(0));
    assert_eq!(fs::read(&table).unwrap(), bytes("designs/counter.table"));
}

#[test]
fn print_knows_a_gate_table() {
    let table = made("unnamed_counter.table");
    fs::write(&table, bytes("designs/counter.table")).unwrap();
    let (status, out, _) = run(&["print", &table]);
    let expected = "gates\n\ninput i0 trusted\n\nflipflop f0 = g3 start 1 untrusted\n\n\
                    gate g0 = nand i0 i0\ngate g1 = nand f0 f0\n\
                    gate g2 = nand g0 g1\ngate g3 = nand g2 g2\n";
    assert_eq!((status, out.as_str()), (Some(0), expected));
    let (status, out, err) = run(&["print", "gates_cut_short.table"]);
    assert_eq!((status, out.as_str()), (Some(2), ""));
    let expected = "gates_cut_short.table: cannot be cut into records: \
                    the sections end at 33, the image at 32\n";
    assert_eq!(err, expected);
}

#[test]
fn explain_knows_both_kinds() {
    for (file, status, begin, end) in [
        ("counter.table", 0, "accepted\n", ""),
        ("multiplexer.caisson", 0, "accepted\n", ""),
        (
            "gates_cut_short.table",
            1,
            "refused by 25 at place 0\n",
            "    12,1 13,4 17,16\n",
        ),
        (
            "latch.table",
            1,
            "refused by 26 at place 3\n",
            "its second wire 4, g1, is not lower than its own, 3\n",
        ),
        (
            "latch.caisson",
            1,
            "refused by 26 at place 3\n",
            "gate kept = nand set other\n         ^\n",
        ),
    ] {
        let (code, out, err) = run(&["explain", file]);
        assert_eq!((code, err.as_str()), (Some(status), ""), "{file}");
        assert!(
            out.starts_with(begin) && out.ends_with(end),
            "{file}: {out}"
        );
    }
}

#[test]
fn only_designs_are_raised_pruned_filed_upgraded_and_compared() {
    let to = made("not_written.table");
    for arguments in [
        ["raise", "counter.table", &to],
        ["raise", "counter.caisson", &to],
        ["prune", "counter.table", &to],
        ["prune", "counter.caisson", &to],
        ["file", "counter.table", &to],
        ["file", "counter.caisson", &to],
        ["upgrade", "counter.table", &to],
    ] {
        let (status, out, err) = run(&arguments);
        assert_eq!((status, out.as_str()), (Some(2), ""));
        assert_eq!(err, format!("{}: {NO_DESIGN}\n", arguments[1]));
        assert!(fs::metadata(&to).is_err());
    }
    for gates in ["counter.table", "counter.caisson"] {
        for arguments in [
            ["compare", gates, "lease.table"],
            ["compare", "lease.table", gates],
            ["sort", gates, "lease.table"],
            ["same", "lease.table", gates],
        ] {
            let (status, out, err) = run(&arguments);
            assert_eq!((status, out.as_str()), (Some(2), ""));
            assert_eq!(err, format!("{gates}: {NO_DESIGN}\n"));
        }
    }
}

/// By the first offset and by the first word, whatever follows.
#[test]
fn the_kinds_are_told_apart() {
    for (image, is_table) in [
        (&[][..], false),
        (&[12], false),
        (&[12, 0], true),
        (&[12, 1], false),
        (&[20, 0], false),
    ] {
        assert_eq!(gates::is_table(image), is_table, "{image:?}");
    }
    for (text, is_text) in [
        ("", false),
        ("gates", true),
        ("\n # gates of\r\n\t# a\n\n \tgates # é\n%", true),
        ("gatesx", false),
        ("# gates", false),
        ("% gates", false),
        ("label gates", false),
    ] {
        assert_eq!(gates::is_text(text), is_text, "{text}");
    }
}
