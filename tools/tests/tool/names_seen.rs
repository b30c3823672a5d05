//! Names in what `draw` and `lint` show of a table that has a names file, and in what `check` says of a text.

use crate::common::{bytes, designs_alone, folder, said, text};
use crate::names_files::{failure, silent};
use std::fs;

/// Assembled in the folder, with its names file.
fn assembled(folder: &str, design: &str) -> String {
    let table = format!("{folder}/{design}.table");
    let source = format!("{design}.caisson");
    assert_eq!(said(&["assemble", &source, &table]), silent());
    table
}

/// With its names file a table is drawn as its text is, and without it by numbers.
#[test]
fn drawn_as_the_text() {
    let folder = folder("names_drawn");
    for design in designs_alone() {
        let table = assembled(&folder, &design);
        let (status, of_text, _) = said(&["draw", &format!("{design}.caisson")]);
        let (named, of_names, _) = said(&["draw", &table]);
        assert_eq!((status, named), (Some(0), Some(0)), "{design}");
        assert!(of_text == of_names, "{design}");
        fs::remove_file(format!("{table}.names")).unwrap();
        let (status, of_numbers, _) = said(&["draw", &table]);
        assert_eq!(status, Some(0), "{design}");
        assert!(
            of_numbers.contains("s0") && of_numbers != of_text,
            "{design}"
        );
    }
}

/// The warnings behind their places, sorted: a text has another order than a table.
fn warnings(out: &str) -> Vec<String> {
    let words = out
        .lines()
        .filter_map(|line| line.split_once(": warning: "));
    let mut words: Vec<String> = words.map(|(_, words)| words.to_string()).collect();
    words.sort();
    words
}

/// The same warnings in the same names, each at its register or state by name.
#[test]
fn looked_over_as_the_text() {
    let folder = folder("names_linted");
    let mut compared = 0;
    for design in designs_alone() {
        let source = text(&format!("designs/{design}.caisson"));
        let table = assembled(&folder, &design);
        let (status, of_text, _) = said(&["lint", &format!("{design}.caisson")]);
        let (named, of_names, err) = said(&["lint", &table]);
        assert_eq!((named, err.as_str()), (status, ""), "{design}");
        assert_eq!(warnings(&of_text), warnings(&of_names), "{design}");
        for line in of_names.lines().filter(|_| status == Some(4)) {
            let (place, _) = line.split_once(": warning: ").unwrap();
            let place = place.strip_prefix(&format!("{table}: ")).unwrap();
            assert!(source.contains(&format!("{place} ")), "{line}");
            compared += 1;
        }
    }
    assert_eq!(compared, 18);
}

/// What is said of a names file that is of another table; nothing is drawn.
#[test]
fn names_of_another_table() {
    let folder = folder("names_not_seen");
    let table = assembled(&folder, "lease");
    fs::write(&table, bytes("designs/tank.table")).unwrap();
    let drawing = format!("{folder}/drawing.dot");
    let words = format!(
        "{table}.names:1: is not of this table: it was made for another, or the table was changed; \
         assemble it again or remove the names file"
    );
    for arguments in [
        &["draw", &table][..],
        &["draw", &table, &drawing],
        &["lint", &table],
    ] {
        assert_eq!(said(arguments), failure(&words), "{arguments:?}");
    }
    assert!(fs::metadata(&drawing).is_err());
}

/// A drawing does not take the place of the names of what it draws.
#[test]
fn the_names_file_is_kept() {
    let folder = folder("names_kept");
    let table = assembled(&folder, "lease");
    let names = format!("{table}.names");
    let before = fs::read(&names).unwrap();
    let words = format!("{names}: is the names file of {table}, and would be lost");
    assert_eq!(said(&["draw", &table, &names]), failure(&words));
    assert!(fs::read(&names).unwrap() == before);
}

/// Each command says of a names file which table it is of, and writes nothing.
#[test]
fn given_for_its_table() {
    let folder = folder("names_given");
    let table = assembled(&folder, "lease");
    let names = format!("{table}.names");
    let other = format!("{folder}/names.caisson");
    fs::copy(&names, &other).unwrap();
    let new = format!("{folder}/new");
    for (given, words) in [
        (&names, format!("is a names file: name its table, {table}")),
        (&other, "is a names file, and no table or text".to_string()),
    ] {
        for arguments in [
            &["assemble", given, &new][..],
            &["check", given],
            &["print", given],
            &["explain", given],
            &["raise", given, &new],
            &["prune", given, &new],
            &["file", given, &new],
            &["sort", given],
            &["same", given, "lease.table"],
            &["upgrade", given, &new],
            &["compare", "lease.table", given],
            &["draw", given, &new],
            &["lint", given],
        ] {
            let expected = failure(&format!("{given}: {words}"));
            assert_eq!(said(arguments), expected, "{arguments:?}");
        }
    }
    assert!(fs::metadata(&new).is_err());
}

/// A name that looks like a number of another record stays as it is, and so does one that is a word of the reasons.
#[test]
fn checked_in_the_names_of_the_text() {
    let folder = folder("names_checked");
    let file = format!("{folder}/odd.caisson");
    for (label, register) in [("l0", "r7"), ("s1", "l0"), ("command", "command")] {
        let line = format!("state s in root : l1 {{ {register} := h; goto s }}");
        let source = format!(
            "label l1 -> {label}\nlabel {label}\nregister h : {label} = 0\nregister {register} : l1 = 0\n\
             state root : l1 {{ fall }}\n{line}\n"
        );
        fs::write(&file, source).unwrap();
        let (status, out, err) = said(&["check", &file]);
        assert_eq!((status, err.as_str()), (Some(1), ""));
        let start = format!("{file}:6:24: refused by 10: ");
        assert!(out.starts_with(&start), "{out}");
        let end = format!("Because:\n    h : {label} does not flow to {register} : l1\n");
        assert!(out.ends_with(&end), "{out}");
    }
}
