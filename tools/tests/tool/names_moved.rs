//! Names that go along with a design: raised, pruned, filed, upgraded; and two designs side by side by name.

use crate::common::{bytes, folder, path, text};
use crate::names_files::{caisson, called, failure, files, silent};
use caisson_tools::names_file::NamesFile;
use std::fs;
use std::process::Command;

/// What a names file has to say of a table that was made from this design.
fn expected(design: &str, states: Option<&[usize]>, table: &str) -> String {
    let source = format!("{design}.caisson");
    let file = NamesFile::of_text(&source, &text(&format!("designs/{source}"))).unwrap();
    let file = match states {
        Some(stay) => {
            let all = 0..file.kinds[2].len();
            file.with_states(
                &all.map(|state| stay.contains(&state))
                    .collect::<Vec<bool>>(),
            )
        }
        None => file,
    };
    file.text(&fs::read(table).unwrap())
}

/// From a text, and from a table with its names file: the lines and the source are those of the text.
#[test]
fn they_go_along() {
    let folder = folder("moved_along");
    let (given, new) = (format!("{folder}/given"), format!("{folder}/new"));
    for (command, design, states) in [
        ("raise", "guessed", None),
        ("prune", "spare_states", Some(&[0, 1, 4, 6, 8, 10][..])),
        ("prune", "slot", None),
        ("file", "dosing", None),
        ("file", "two_groups_shared", None),
    ] {
        let source = format!("{design}.caisson");
        assert_eq!(caisson(&["assemble", &source, &given]), silent());
        let mut tables = Vec::new();
        for from in [&source, &given] {
            // Over a names file of another table.
            fs::write(format!("{new}.names"), text("designs/lease.table.names")).unwrap();
            let (status, out, err) = caisson(&[command, from, &new]);
            assert_eq!((status, err.as_str()), (Some(0), ""), "{command} {from}");
            assert!(!out.contains("is removed"), "{out}");
            let names = fs::read_to_string(format!("{new}.names")).unwrap();
            assert_eq!(names, expected(design, states, &new), "{command} {from}");
            tables.push((fs::read(&new).unwrap(), out));
            let (status, out, _) = caisson(&["print", &new]);
            assert_eq!(status, Some(0));
            assert!(out.contains("\nstate root : "), "{out}");
        }
        assert!(tables[0] == tables[1], "{command} {design}");
    }
    assert_eq!(files(&folder), ["given", "given.names", "new", "new.names"]);
}

/// Of tables of old formats, whose sum is that of their own bytes.
#[test]
fn upgrade_takes_them_along() {
    let folder = folder("moved_up");
    let (old, new) = (format!("{folder}/old"), format!("{folder}/new"));
    let lease = NamesFile::of_text("lease.caisson", &text("designs/lease.caisson")).unwrap();
    for format in [1, 2] {
        let image = bytes(&format!("tools/tests/data/lease_format_{format}.table"));
        fs::write(&old, &image).unwrap();
        fs::write(format!("{old}.names"), lease.text(&image)).unwrap();
        assert_eq!(caisson(&["upgrade", &old, &new]), silent());
        let names = fs::read_to_string(format!("{new}.names")).unwrap();
        assert_eq!(names, text("designs/lease.table.names"));
        // Nothing is shown by name before.
        assert_eq!(caisson(&["explain", &old]).0, Some(1));
    }
}

/// A text that is raised to a text has its names in itself.
#[test]
fn a_raised_text_has_no_names_file() {
    let folder = folder("moved_text");
    let new = format!("{folder}/new.caisson");
    assert_eq!(caisson(&["raise", "guessed.caisson", &new]).0, Some(0));
    assert_eq!(
        fs::read_to_string(&new).unwrap().lines().count(),
        text("designs/guessed.caisson").lines().count()
    );
    assert_eq!(files(&folder), ["new.caisson"]);
}

/// Where the names of the new table are not known, those beside it would not fit, and that is said.
#[test]
fn stale_ones_are_removed() {
    let folder = folder("moved_stale");
    let new = format!("{folder}/new");
    let old = path("tools/tests/data/lease_format_2.table");
    for (command, from, begin) in [
        ("raise", "guessed.table", "accepted with 5 labels raised:\n"),
        ("prune", "spare_states.table", "5 of 11 states go:\n"),
        ("file", "dosing.table", "new numbers: "),
        ("upgrade", old.to_str().unwrap(), ""),
    ] {
        fs::write(&new, "old").unwrap();
        fs::write(format!("{new}.names"), text("designs/lease.table.names")).unwrap();
        let (status, out, err) = caisson(&[command, from, &new]);
        assert_eq!((status, err.as_str()), (Some(0), ""), "{command}");
        let end = format!("{new}.names is removed: the names of the new table are not known\n");
        assert!(out.starts_with(begin) && out.ends_with(&end), "{out}");
        assert_eq!(files(&folder), ["new"], "{command}");
        // Again, and there is nothing to say of it.
        let (_, again, _) = caisson(&[command, from, &new]);
        assert_eq!(Some(again.as_str()), out.strip_suffix(&end));
    }
}

/// Of a refused design nothing is written, and a names file that is there stays.
#[test]
fn a_refusal_leaves_them() {
    let folder = folder("moved_refused");
    let new = format!("{folder}/new");
    let names = text("designs/lease.table.names");
    fs::write(format!("{new}.names"), &names).unwrap();
    for (command, from) in [
        ("raise", "no_raising.table"),
        ("prune", "leak.caisson"),
        ("file", "leak.table"),
    ] {
        assert_eq!(caisson(&[command, from, &new]).0, Some(1), "{command}");
        assert_eq!(fs::read_to_string(format!("{new}.names")).unwrap(), names);
        assert_eq!(files(&folder), ["new.names"]);
    }
}

/// Neither the design nor its names are written over.
#[test]
fn the_given_ones_stay() {
    let folder = folder("moved_given");
    let (given, names) = (format!("{folder}/given"), format!("{folder}/given.names"));
    assert_eq!(caisson(&["assemble", "lease.caisson", &given]), silent());
    for command in ["raise", "prune", "file", "upgrade"] {
        let words = format!("{names}: is the names file of {given}, and would be lost");
        assert_eq!(caisson(&[command, &given, &names]), failure(&words));
        assert_eq!(
            fs::read_to_string(&names).unwrap(),
            text("designs/lease.table.names")
        );
    }
}

/// Names do not count, and those that differ are both shown.
#[test]
fn designs_are_compared_by_name() {
    let folder = folder("moved_compared");
    let (source, table) = (format!("{folder}/new.caisson"), format!("{folder}/new"));
    let renamed = text("designs/two_groups_edited.caisson")
        .replace("first_a", "pump")
        .replace("low", "all");
    fs::write(&source, &renamed).unwrap();
    assert_eq!(caisson(&["assemble", &source, &table]), silent());
    for new in [&source, &table] {
        let (status, out, err) = caisson(&["compare", "two_groups.table", new]);
        assert_eq!((status, err.as_str()), (Some(0), ""));
        let said = "Labels, registers and state records are equal, apart from command numbers.\n\
                    Apart from node numbers, bodies differ in:\n    \
                    state 4 (first_a, now pump), label 1 (high)\n    state 5 (first_b), label 1 (high)\n\n\
                    Level 0 (low, now all): nothing changes.\n\
                    Level 1 (high): the theorem says nothing. States 4 (first_a, now pump) and 5 (first_b) have ";
        assert!(out.contains(said), "{out}");
        let (status, out, _) = caisson(&["same", "two_groups.caisson", new]);
        assert_eq!(status, Some(1));
        assert!(
            out.ends_with("differ, first in the body of state 4 (first_a, now pump)\n"),
            "{out}"
        );
        // A level has the name that the old design has for it.
        assert_eq!(
            caisson(&["compare", "two_groups.table", new, "--level", "low"]).0,
            Some(0)
        );
        let words = "two_groups.table: level all is no label: the design has labels low, high";
        assert_eq!(
            caisson(&["compare", "two_groups.table", new, "--level", "all"]),
            failure(words)
        );
    }
    let changed = renamed.replace("port switch : all", "port switch : all width 4");
    fs::write(
        &source,
        changed.replace(
            "label all -> high\nlabel high",
            "label all -> high, top\nlabel high -> top\nlabel top",
        ),
    )
    .unwrap();
    let (status, out, _) = caisson(&["compare", "two_groups.table", &source]);
    assert_eq!(status, Some(0), "{out}");
    for line in [
        "    labels: from 2 to 3\n",
        "    label 0 (low, now all), row: from 3 (flows to low, high) to 7 (flows to all, high, top)\n",
        "    register 3 (switch), width: from 32 to 4\n",
    ] {
        assert!(out.contains(line), "{out}");
    }
}

/// The examples of the tool's README, in a folder for what they write, beside `designs`.
#[test]
fn the_readme_shows_what_happens() {
    let readme = text("tools/README.md");
    let (_, section) = readme.split_once("## Names\n").expect("a section");
    let (_, shown) = section.split_once("```\n").unwrap();
    let (shown, _) = shown.split_once("```").unwrap();
    let folder = folder("moved_readme");
    let designs = path("designs").canonicalize().unwrap();
    std::os::unix::fs::symlink(designs, format!("{folder}/designs")).unwrap();
    let mut said = String::new();
    for line in shown.lines().filter(|line| line.starts_with("$ ")) {
        let mut command = Command::new("bash");
        let tool = env!("CARGO_BIN_EXE_caisson");
        command.args([
            "-c",
            r#"cd "$1"; tool=$2; caisson() { "$tool" "$@"; }; eval "$3""#,
            "bash",
            &folder,
            tool,
            &line[2..],
        ]);
        let (_, out, err) = called(command);
        said += &format!("{line}\n{out}{err}");
    }
    assert_eq!(said, shown);
}
