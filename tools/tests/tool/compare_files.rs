//! `caisson compare` as one calls it: texts and tables, what it says of bad ones, and its status.

use crate::common::{self, bytes, folder, path, text};
use caisson_tools::{assemble, explain, library};
use std::fs;
use std::process::Command;

/// The status, standard output and standard error.
fn caisson(arguments: &[&str]) -> (Option<i32>, String, String) {
    let mut command = Command::new(env!("CARGO_BIN_EXE_caisson"));
    command.args(arguments).current_dir(path("designs"));
    let output = command.output().unwrap();
    let text = |bytes| String::from_utf8(bytes).unwrap();
    (
        output.status.code(),
        text(output.stdout),
        text(output.stderr),
    )
}

fn compare(arguments: &[&str]) -> (Option<i32>, String, String) {
    caisson(&[&["compare"], arguments].concat())
}

#[test]
fn texts_and_tables_are_compared() {
    for old in ["two_groups.table", "two_groups.caisson"] {
        for new in ["two_groups_edited.table", "two_groups_edited.caisson"] {
            let (status, out, err) = compare(&[old, new]);
            assert_eq!((status, err.as_str()), (Some(0), ""));
            let head = format!(
                "Accepted: {old}, the old design, and {new}, the new one.\n\
                 Labels, registers and state records are equal, apart from command numbers.\n"
            );
            assert!(out.starts_with(&head), "{out}");
            assert!(out.contains(
                "\nLevel 0 (low): nothing changes.\nLevel 1 (high): the theorem says nothing. "
            ));
        }
    }
}

/// The example of the tool's README, which is called beside `designs`.
#[test]
fn the_readme_shows_what_happens() {
    let readme = text("tools/README.md");
    let (_, shown) = readme.split_once("$ caisson compare ").expect("an example");
    let (arguments, shown) = shown.split_once('\n').unwrap();
    let (shown, _) = shown.split_once("```").unwrap();
    let arguments: Vec<&str> = arguments.split(' ').collect();
    let mut command = Command::new(env!("CARGO_BIN_EXE_caisson"));
    command.arg("compare").args(arguments).current_dir(path(""));
    let output = command.output().unwrap();
    assert_eq!(String::from_utf8(output.stdout).unwrap(), shown);
    assert_eq!(output.status.code(), Some(0));
}

/// 0 where it is said for the level that nothing changes, 3 where nothing is said for it.
#[test]
fn a_level_has_its_status() {
    for (new, level, expected) in [
        ("two_groups_edited.table", "0", 0),
        ("two_groups_edited.table", "1", 3),
        ("two_groups_edited.table", "01", 3),
        ("two_groups_edited.table", "low", 0),
        ("two_groups_edited.caisson", "high", 3),
        ("two_groups.caisson", "0", 0),
        ("two_groups.caisson", "1", 0),
        ("lease.table", "0", 3),
        ("lease.table", "1", 3),
        ("no_fall.table", "1", 3),
    ] {
        let (status, out, err) = compare(&["two_groups.table", new, "--level", level]);
        assert_eq!(
            (status, err.as_str()),
            (Some(expected), ""),
            "{new} {level}"
        );
        let said = match expected {
            0 => "nothing changes.\n",
            _ => "the theorem says nothing. ",
        };
        let level = match level {
            "0" | "low" => "0 (low)",
            _ => "1 (high)",
        };
        assert!(out.contains(&format!("\n\nLevel {level}: {said}")), "{out}");
        assert_eq!(out.matches("\nLevel ").count(), 1, "{out}");
    }
    // Without a level all is said, and what there is to say does not matter.
    for new in [
        "two_groups_edited.table",
        "two_groups.caisson",
        "lease.table",
    ] {
        assert_eq!(compare(&["two_groups.table", new]).0, Some(0));
    }
}

/// A level is one of the old design's. One that the new design has lost is a difference.
#[test]
fn a_level_may_be_lost() {
    let (status, out, _) = compare(&["diamond.table", "lease.table", "--level", "3"]);
    assert_eq!(status, Some(3));
    assert!(out.contains("\n    labels: from 4 to 2\n"), "{out}");
    let (status, out, err) = compare(&["lease.table", "diamond.table", "--level", "3"]);
    assert_eq!((status, out.as_str()), (Some(2), ""));
    assert_eq!(
        err,
        "lease.table: level 3 is no label: the design has labels 0 to 1\n"
    );
}

/// In the words of `explain`, with the name of the file; both where both are refused.
#[test]
fn a_refused_design_is_explained() {
    let explained = |file: &str| format!("{file}: {}", caisson(&["explain", file]).1);
    let end = "Only accepted designs are compared.\n";
    for refused in [
        "leak.caisson",
        "leak.table",
        "cut_short.table",
        "one_choice.caisson",
    ] {
        let expected = format!("{}\n{end}", explained(refused));
        for pair in [["lease.table", refused], [refused, "lease.table"]] {
            assert_eq!(compare(&pair), (Some(1), expected.clone(), String::new()));
            let level = compare(&[pair[0], pair[1], "--level", "9"]);
            assert_eq!(level, (Some(1), expected.clone(), String::new()));
        }
    }
    let both = format!(
        "{}\n{}\n{end}",
        explained("leak.caisson"),
        explained("low_child.table")
    );
    assert_eq!(
        compare(&["leak.caisson", "low_child.table"]),
        (Some(1), both, String::new())
    );
    let old = path("tools/tests/data/lease_format_2.table")
        .to_string_lossy()
        .into_owned();
    let (status, out, _) = compare(&["lease.table", &old]);
    assert_eq!(status, Some(1));
    assert!(
        out.contains("\nIt is a table of format 2, whose state records have 4 bytes; "),
        "{out}"
    );
    let image = bytes("designs/leak.table");
    let words = explain::explain(&image, library::check(&image));
    assert_eq!(explained("leak.table"), format!("leak.table: {words}"));
}

/// What is no pair of designs: nothing on standard output, and these words.
#[test]
fn it_says_why_it_cannot() {
    let folder = folder("compared_not");
    let (wrong, other) = (
        format!("{folder}/wrong.caisson"),
        format!("{folder}/other.caisson"),
    );
    fs::write(&wrong, "label low\nstate root : high { fall }\n").unwrap();
    fs::write(&other, b"label \xff").unwrap();
    let own = format!("{folder}/own.table");
    let (link, hard) = (
        format!("{folder}/link.table"),
        format!("{folder}/hard.table"),
    );
    fs::write(&own, bytes("designs/lease.table")).unwrap();
    std::os::unix::fs::symlink("own.table", &link).unwrap();
    fs::hard_link(&own, &hard).unwrap();
    let lease = "lease.table";
    let missing = "none.table: No such file or directory (os error 2)";
    let fault = format!("{wrong}{}", common::HIGH_FAULT);
    let not_utf8 = format!("{other}{}", common::BYTE_FAULT);
    let itself = |file: &str| format!("{file}: is the old design itself");
    let no_label =
        |level: &str| format!("{lease}: level {level} is no label: the design has labels 0 to 1");
    let no_number =
        |level: &str| format!("--level {level}: a level is the number or the name of a label");
    let [new, level] = ["two_groups.table", "--level"];
    for (arguments, words) in [
        (&["none.table", lease][..], missing.to_string()),
        (&[lease, "none.table"], missing.to_string()),
        (&["leak.table", "none.table"], missing.to_string()),
        (&[&wrong, lease], fault.clone()),
        (&[lease, &wrong], fault),
        (&[lease, &other], not_utf8),
        (&[lease, lease], itself(lease)),
        (&[&own, &own], itself(&own)),
        (&[&own, &link], itself(&link)),
        (&[&hard, &own], itself(&own)),
        (&[lease, new, level, "2"], no_label("2")),
        (&[lease, new, level, "16"], no_label("16")),
        (&[lease, new, level, "256"], no_label("256")),
        (&[lease, new, level, "4294967296"], no_label("4294967296")),
        (&[lease, new, level, "-1"], no_number("-1")),
        (&[lease, new, level, "+1"], no_number("+1")),
        (&[lease, new, level, "1x"], no_number("1x")),
        (&[lease, new, level, "low-1"], no_number("low-1")),
        (
            &[lease, new, level, "middle"],
            format!("{lease}: level middle is no label: the design has labels low, high"),
        ),
        (
            &["diamond.table", new, level, "low"],
            "diamond.table: level low is not known: no names file is beside the table, \
             so that a level is the number of a label, 0 to 3"
                .to_string(),
        ),
        (&[lease, new, level, ""], no_number("")),
        (
            &[lease, new, level, "99999999999999999999"],
            no_number("99999999999999999999"),
        ),
    ] {
        let expected = (Some(2), String::new(), format!("{words}\n"));
        assert_eq!(compare(arguments), expected, "{arguments:?}");
    }
    for arguments in [
        &[][..],
        &[lease],
        &[lease, new, lease],
        &[lease, new, level],
        &[lease, new, "1"],
        &[lease, level, "1"],
        &[level, "1", lease, new],
        &[lease, new, "--levels", "1"],
        &[lease, new, level, "1", "0"],
        &[lease, new, level, "1", level, "0"],
    ] {
        let (status, out, err) = compare(arguments);
        assert_eq!((status, out.as_str()), (Some(2), ""), "{arguments:?}");
        let usage = err.strip_prefix("there is no option `--levels`; did you mean `--level`?\n");
        assert_eq!(usage.is_some(), arguments.contains(&"--levels"));
        let usage = usage.unwrap_or(&err);
        assert!(
            usage.starts_with("usage: caisson assemble SOURCE TABLE\n"),
            "{err}"
        );
        assert!(
            err.contains("\n       caisson compare OLD NEW [--level LEVEL]\n"),
            "{err}"
        );
    }
}

/// Another file with the same bytes is another design's.
#[test]
fn a_copy_is_the_same() {
    let copy = format!("{}/copy.table", folder("compared_copies"));
    fs::write(&copy, assemble(&text("designs/lease.caisson")).unwrap()).unwrap();
    let (status, out, _) = compare(&["lease.table", &copy]);
    assert_eq!(status, Some(0));
    let said = "\nBodies are the same in every state, apart from node numbers.\n\n\
                Level 0 (low): nothing changes.\nLevel 1 (high): nothing changes.\n\n";
    assert!(out.contains(said), "{out}");
}
