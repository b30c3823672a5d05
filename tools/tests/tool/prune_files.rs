//! `caisson prune` as one calls it: the files it reads and writes, what it says of bad ones, and its status.

use crate::common::{self, bytes, folder, path, text};
use std::fs;
use std::io::Read;
use std::process::Command;

/// The status, standard output and standard error.
type Said = (Option<i32>, String, String);

fn called(mut command: Command) -> Said {
    let output = command.current_dir(path("designs")).output().unwrap();
    let text = |bytes| String::from_utf8(bytes).unwrap();
    (
        output.status.code(),
        text(output.stdout),
        text(output.stderr),
    )
}

fn caisson(arguments: &[&str]) -> Said {
    let mut command = Command::new(env!("CARGO_BIN_EXE_caisson"));
    command.args(arguments);
    called(command)
}

fn prune(from: &str, to: &str) -> Said {
    caisson(&["prune", from, to])
}

/// The names of the files in a folder, sorted.
fn files(folder: &str) -> Vec<String> {
    let files = fs::read_dir(folder).unwrap();
    let mut names: Vec<String> = files
        .map(|file| file.unwrap().file_name().into_string().unwrap())
        .collect();
    names.sort();
    names
}

/// Where nothing is yet, over a file that is longer, and through a link, which stays one.
#[test]
fn a_table_comes_from_either() {
    let folder = folder("pruned_tables");
    let link = format!("{folder}/link");
    std::os::unix::fs::symlink("long.table", &link).unwrap();
    let (new, long) = (
        format!("{folder}/new.table"),
        format!("{folder}/long.table"),
    );
    for from in ["spare_states.table", "spare_states.caisson"] {
        for to in [&new, &long, &link] {
            fs::write(&long, [1; 1_000]).unwrap();
            let (status, out, err) = prune(from, to);
            assert_eq!((status, err.as_str()), (Some(0), ""));
            assert!(out.starts_with("5 of 11 states go:\n"), "{out}");
            assert!(fs::read(to).unwrap() == bytes("designs/spare_states_pruned.table"));
            // A text has names, and the names file stands beside the name that was given.
            let names = format!("{to}.names");
            assert_eq!(fs::metadata(&names).is_ok(), from.ends_with(".caisson"));
            let _ = fs::remove_file(&names);
        }
        fs::remove_file(&new).unwrap();
    }
    assert!(fs::symlink_metadata(&link).unwrap().is_symlink());
    assert_eq!(files(&folder), ["link", "long.table"]);
}

/// Of the example in the tool's README, which is called beside `designs`.
#[test]
fn the_readme_shows_what_happens() {
    let readme = text("tools/README.md");
    let (_, shown) = readme.split_once("$ caisson prune ").expect("an example");
    let (arguments, shown) = shown.split_once('\n').unwrap();
    let (shown, _) = shown.split_once("```").unwrap();
    let (from, to) = arguments.split_once(' ').unwrap();
    let to = format!("{}/{to}", folder("pruned_readme"));
    let mut command = Command::new(env!("CARGO_BIN_EXE_caisson"));
    command.args(["prune", from, &to]).current_dir(path(""));
    let output = command.output().unwrap();
    assert_eq!(String::from_utf8(output.stdout).unwrap(), shown);
    assert_eq!(output.status.code(), Some(0));
}

/// The whole and the pruned, byte for byte.
#[test]
fn what_is_reached_comes_back_unchanged() {
    let folder = folder("pruned_unchanged");
    for design in [
        "lease",
        "two_groups_shared",
        "deepest",
        "spare_states_pruned",
    ] {
        for ending in ["table", "caisson"] {
            let to = format!("{folder}/{design}.{ending}.table");
            let said = prune(&format!("{design}.{ending}"), &to);
            let words = "nothing goes: every state is reached\n";
            assert_eq!(said, (Some(0), words.to_string(), String::new()));
            assert!(fs::read(&to).unwrap() == bytes(&format!("designs/{design}.table")));
        }
    }
}

/// Nothing is written, and a file that is there stays; what is said is what `explain` says.
#[test]
fn a_refused_design_is_written_nowhere() {
    let folder = folder("pruned_refused");
    let old = format!("{folder}/old.table");
    fs::write(&old, "old").unwrap();
    for design in [
        "leak.caisson",
        "leak.table",
        "spare_default.caisson",
        "cut_short.table",
        "../tools/tests/data/lease_format_2.table",
    ] {
        let expected = caisson(&["explain", design]);
        assert_eq!(expected.0, Some(1));
        assert_eq!(prune(design, &format!("{folder}/new.table")), expected);
        assert_eq!(prune(design, &old), expected);
        assert_eq!(fs::read(&old).unwrap(), b"old");
    }
    assert_eq!(files(&folder), ["old.table"]);
}

/// What cannot be pruned or written: nothing on standard output, these words, and no file changed.
#[test]
fn it_says_why_it_cannot() {
    let folder = folder("pruned_not");
    let name = |file: &str| format!("{folder}/{file}");
    let [own, link, hard, wrong, other, new] = [
        "own.table",
        "link",
        "hard",
        "wrong.caisson",
        "other.caisson",
        "new.table",
    ]
    .map(name);
    fs::write(&own, bytes("designs/spare_states.table")).unwrap();
    std::os::unix::fs::symlink("own.table", &link).unwrap();
    fs::hard_link(&own, &hard).unwrap();
    fs::write(&wrong, "label low\nstate root : high { fall }\n").unwrap();
    fs::write(&other, b"label \xff").unwrap();
    let (nowhere, text) = (name("none/new.table"), name("new.caisson"));
    let before = files(&folder);
    let missing = "No such file or directory (os error 2)";
    let itself = |file: &str| format!("{file}: is the design itself, and would be lost");
    let no_text = "a design is pruned to a table; `caisson print` makes a text of that";
    let no_design =
        "is a gate table; only a design can be raised, pruned, filed, upgraded or compared";
    let [table, source] = ["spare_states.table", "spare_states.caisson"];
    for (from, to, words) in [
        ("none.table", &new[..], format!("none.table: {missing}")),
        ("none.caisson", &new, format!("none.caisson: {missing}")),
        (table, &nowhere, format!("{nowhere}: {missing}")),
        (
            table,
            &folder,
            format!("{folder}: Is a directory (os error 21)"),
        ),
        (
            &folder,
            &new,
            format!("{folder}: Is a directory (os error 21)"),
        ),
        (&own, &own, itself(&own)),
        (&own, &link, itself(&link)),
        (&link, &own, itself(&own)),
        (&own, &hard, itself(&hard)),
        (&wrong, &wrong, itself(&wrong)),
        (table, &text, format!("{text}: {no_text}")),
        (source, &text, format!("{text}: {no_text}")),
        ("counter.table", &new, format!("counter.table: {no_design}")),
        (
            "counter.caisson",
            &new,
            format!("counter.caisson: {no_design}"),
        ),
        (&wrong, &new, format!("{wrong}{}", common::HIGH_FAULT)),
        (&other, &new, format!("{other}{}", common::BYTE_FAULT)),
    ] {
        let expected = (Some(2), String::new(), format!("{words}\n"));
        assert_eq!(prune(from, to), expected, "{from} {to}");
        assert_eq!(files(&folder), before, "{from} {to}");
    }
    assert!(fs::read(&own).unwrap() == bytes("designs/spare_states.table"));
    for arguments in [
        &["prune"][..],
        &["prune", table],
        &["prune", table, &new, &new],
    ] {
        let (status, out, err) = caisson(arguments);
        assert_eq!((status, out.as_str()), (Some(2), ""));
        assert!(err.starts_with("usage: caisson assemble SOURCE TABLE\n"));
        assert!(err.contains("\n       caisson prune TABLE PRUNED\n"));
    }
    assert_eq!(files(&folder), before);
}

/// Where the file system takes no byte, what stood under the name still does, and nothing lies beside it.
#[test]
fn nothing_is_half_written() {
    let folder = folder("pruned_half");
    let old = format!("{folder}/old.table");
    fs::write(&old, "old").unwrap();
    let mut command = Command::new("bash");
    let limited = r#"trap "" XFSZ; ulimit -f 0; exec "$0" "$@""#;
    command.args(["-c", limited, env!("CARGO_BIN_EXE_caisson")]);
    command.args(["prune", "spare_states.table", &old]);
    let words = format!("{old}: File too large (os error 27)\n");
    assert_eq!(called(command), (Some(2), String::new(), words));
    assert_eq!(fs::read(&old).unwrap(), b"old");
    assert_eq!(files(&folder), ["old.table"]);
}

/// A pipe has a place of its own: it is written to, and stays a pipe.
#[test]
fn a_pipe_takes_the_table() {
    let pipe = format!("{}/pipe", folder("pruned_pipe"));
    assert!(Command::new("mkfifo")
        .arg(&pipe)
        .status()
        .unwrap()
        .success());
    // Open for both, so that no end waits for the other.
    let mut options = fs::OpenOptions::new();
    let mut end = options.read(true).write(true).open(&pipe).unwrap();
    assert_eq!(prune("spare_states.table", &pipe).0, Some(0));
    let expected = bytes("designs/spare_states_pruned.table");
    let mut taken = vec![0; expected.len()];
    end.read_exact(&mut taken).unwrap();
    assert!(taken == expected);
}
