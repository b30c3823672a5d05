//! What the command line says: help, version, unknown words, and texts in the place of tables.

use crate::common::{folder, said, text};
use std::fs;

/// A text under another name is not taken for a table.
#[test]
fn a_text_is_known() {
    let folder = folder("explained_text");
    for (name, meant) in [
        ("a.txt", "a.caisson"),
        ("b", "b.caisson"),
        ("c.table", "c.caisson"),
    ] {
        let file = format!("{folder}/{name}");
        fs::write(&file, text("designs/lease.caisson")).unwrap();
        let expected = format!(
            "{file}: is a text and no table: name it {folder}/{meant}, or use `caisson check`\n"
        );
        let new = format!("{folder}/new.table");
        for arguments in [
            &["explain", &file][..],
            &["print", &file],
            &["raise", &file, &new],
            &["prune", &file, &new],
            &["file", &file, &new],
            &["sort", &file],
            &["same", &file, "lease.table"],
            &["upgrade", &file, &new],
            &["compare", &file, "lease.table"],
            &["draw", &file],
            &["lint", &file],
        ] {
            assert_eq!(said(arguments), (Some(2), String::new(), expected.clone()));
        }
        let accepted = format!(
            "{file}: accepted, 2 labels, 2 registers, 5 states, 13 commands, 6 expressions\n"
        );
        assert_eq!(said(&["check", &file]), (Some(0), accepted, String::new()));
    }
}

#[test]
fn help_and_version_are_shown() {
    let (status, usage, err) = said(&["--help"]);
    assert_eq!((status, err.as_str()), (Some(0), ""));
    assert!(
        usage.starts_with("usage: caisson assemble SOURCE TABLE\n"),
        "{usage}"
    );
    assert!(usage.contains("       caisson check SOURCE\n"), "{usage}");
    for arguments in [&["-h"][..], &["check", "--help"], &["raise", "-h"]] {
        assert_eq!(said(arguments), (Some(0), usage.clone(), String::new()));
    }
    let header = text("include/caisson.h");
    let version = header.split_once("#define CAISSON_VERSION \"").unwrap().1;
    let version = version.split('"').next().unwrap();
    let expected = format!("caisson {version}, image format 3, built with the library {version}\n");
    assert_eq!(said(&["--version"]), (Some(0), expected, String::new()));
}

#[test]
fn unknown_commands_and_options_are_named() {
    let (_, usage, _) = said(&["--help"]);
    for (arguments, words) in [
        (
            &["asemble", "a", "b"][..],
            "there is no command `asemble`; did you mean `assemble`?\n",
        ),
        (
            &["chekc", "a"],
            "there is no command `chekc`; did you mean `check`?\n",
        ),
        (&["frobnicate"], "there is no command `frobnicate`\n"),
        (
            &["--hlep"],
            "there is no option `--hlep`; did you mean `--help`?\n",
        ),
        (&["-x", "a"], "there is no option `-x`\n"),
        (
            &["compare", "a", "b", "--levle", "1"],
            "there is no option `--levle`; did you mean `--level`?\n",
        ),
        (
            &["check", "a", "--colour"],
            "there is no option `--colour`\n",
        ),
        (&["check"], ""),
        (&["check", "a", "b"], ""),
        (&[], ""),
    ] {
        let expected = (Some(2), String::new(), format!("{words}{usage}"));
        assert_eq!(said(arguments), expected, "{arguments:?}");
    }
}
