//! `caisson raise` as one calls it: the files it reads and writes, and its status.

use crate::common::{self, bytes, folder, path, text};
use caisson_tools::assemble;
use std::fs;
use std::process::{Command, Output};

fn raise(from: &str, to: &str) -> Output {
    let mut command = Command::new(env!("CARGO_BIN_EXE_caisson"));
    command
        .args(["raise", from, to])
        .current_dir(path("designs"));
    command.output().unwrap()
}

fn failure(output: &Output) -> String {
    assert_eq!(output.status.code(), Some(2));
    assert!(output.stdout.is_empty());
    String::from_utf8(output.stderr.clone()).unwrap()
}

#[test]
fn a_table_comes_from_either() {
    let folder = folder("raised_tables");
    for from in ["guessed.table", "guessed.caisson"] {
        let to = format!("{folder}/{from}.table");
        let output = raise(from, &to);
        assert_eq!(output.status.code(), Some(0));
        assert!(output
            .stdout
            .starts_with(b"accepted with 5 labels raised:\n"));
        assert!(fs::read(&to).unwrap() == bytes("designs/guessed_raised.table"));
    }
}

/// All but the labels stays: comments, blanks and names.
#[test]
fn a_text_comes_from_a_text() {
    let to = format!("{}/raised.caisson", folder("raised_texts"));
    let output = raise("guessed.caisson", &to);
    assert_eq!(output.status.code(), Some(0));
    let (old, new) = (
        text("designs/guessed.caisson"),
        fs::read_to_string(&to).unwrap(),
    );
    assert!(assemble(&new).unwrap() == bytes("designs/guessed_raised.table"));
    assert_eq!(old.lines().count(), new.lines().count());
    let changed: Vec<(&str, &str)> = old
        .lines()
        .zip(new.lines())
        .filter(|(a, b)| a != b)
        .collect();
    assert_eq!(changed.len(), 5);
    let first = (
        "register north_last : site width 10 = 0",
        "register north_last : north width 10 = 0",
    );
    assert_eq!(changed[0], first);
}

/// Several registers in one line, letters that are no ASCII before them, no line end.
#[test]
fn columns_are_counted_in_characters() {
    let folder = folder("raised_columns");
    let (from, to) = (
        format!("{folder}/from.caisson"),
        format!("{folder}/to.caisson"),
    );
    let source = |a: &str, b: &str| {
        format!(
            "# Überlauf\r\nlabel l -> high\nlabel high # höchste\n\
             port p : high = 0 register a:{a} width 1 = 0\tregister b : {b} = 0\n\
             state r : l {{ fall }}\nstate s in r : l {{ b := a; a := p; goto s }}"
        )
    };
    fs::write(&from, source("l", "l")).unwrap();
    assert_eq!(raise(&from, &to).status.code(), Some(0));
    assert_eq!(fs::read_to_string(&to).unwrap(), source("high", "high"));
}

#[test]
fn an_accepted_design_comes_back_unchanged() {
    let folder = folder("raised_unchanged");
    for design in ["lease.table", "lease.caisson", "diamond.caisson"] {
        let to = format!("{folder}/{design}");
        let output = raise(design, &to);
        assert_eq!(output.status.code(), Some(0));
        assert_eq!(output.stdout, b"accepted as it is: no label has to rise\n");
        assert!(fs::read(&to).unwrap() == bytes(&format!("designs/{design}")));
    }
}

/// Nothing is written, and a file that is there stays.
#[test]
fn a_refused_design_is_written_nowhere() {
    let folder = folder("raised_refused");
    let old = format!("{folder}/old.table");
    fs::write(&old, "old").unwrap();
    for (design, number) in [
        ("no_raising.caisson", 18),
        ("guessed_shared.caisson", 20),
        ("two_groups_shared.table", 20),
        ("cut_short.table", 1),
    ] {
        let new = format!("{folder}/{design}.table");
        let output = raise(design, &new);
        let words = String::from_utf8(output.stdout).unwrap();
        assert_eq!(output.status.code(), Some(1), "{design}");
        assert!(words.starts_with(&format!("refused by {number} at place 0\n")));
        assert!(fs::metadata(&new).is_err());
        assert_eq!(raise(design, &old).status.code(), Some(1));
        assert_eq!(fs::read(&old).unwrap(), b"old");
    }
}

#[test]
fn it_says_why_it_cannot() {
    let folder = folder("raised_not");
    let text = format!("{folder}/new.caisson");
    assert_eq!(
        failure(&raise("guessed.table", &text)),
        format!("{text}: a table is raised to a table; `caisson print` makes a text of that\n")
    );
    assert!(fs::metadata(&text).is_err());
    let (own, link) = (format!("{folder}/own.table"), format!("{folder}/link"));
    fs::write(&own, bytes("designs/guessed.table")).unwrap();
    std::os::unix::fs::symlink("own.table", &link).unwrap();
    for to in [&own, &link] {
        let message = failure(&raise(&own, to));
        assert_eq!(
            message,
            format!("{to}: is the design itself, and would be lost\n")
        );
        assert!(fs::read(&own).unwrap() == bytes("designs/guessed.table"));
    }
    fs::write(&text, "label low\nstate root : high { fall }\n").unwrap();
    let message = failure(&raise(&text, &format!("{folder}/new.table")));
    assert_eq!(message, format!("{text}{}\n", common::HIGH_FAULT));
    let nowhere = format!("{folder}/none/new.table");
    assert!(failure(&raise("guessed.table", &nowhere)).starts_with(&format!("{nowhere}: ")));
    assert!(failure(&raise("none.table", &nowhere)).starts_with("none.table: "));
}
