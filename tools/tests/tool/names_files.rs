//! The names file beside a table, on the command line: written with it, read with it, and refused where it is not of
//! the table.

use crate::common::{bytes, folder, path, text};
use std::fs;
use std::process::Command;

/// The status, standard output and standard error.
pub type Said = (Option<i32>, String, String);

pub fn caisson(arguments: &[&str]) -> Said {
    let mut command = Command::new(env!("CARGO_BIN_EXE_caisson"));
    command.args(arguments);
    called(command)
}

pub fn called(mut command: Command) -> Said {
    let output = command.current_dir(path("designs")).output().unwrap();
    let text = |bytes| String::from_utf8(bytes).unwrap();
    (
        output.status.code(),
        text(output.stdout),
        text(output.stderr),
    )
}

/// Says nothing, and ends with 0.
pub fn silent() -> Said {
    (Some(0), String::new(), String::new())
}

pub fn failure(words: &str) -> Said {
    (Some(2), String::new(), format!("{words}\n"))
}

pub fn files(folder: &str) -> Vec<String> {
    let files = fs::read_dir(folder).unwrap();
    let mut names: Vec<String> = files
        .map(|file| file.unwrap().file_name().into_string().unwrap())
        .collect();
    names.sort();
    names
}

#[test]
fn assemble_writes_both() {
    let folder = folder("named_tables");
    for design in ["two_groups", "two_groups_shared", "tank", "slot", "counter"] {
        let table = format!("{folder}/{design}.table");
        // Where nothing is yet, and over what was there.
        for _ in 0..2 {
            let said = caisson(&["assemble", &format!("{design}.caisson"), &table]);
            assert_eq!(said, silent());
            assert!(fs::read(&table).unwrap() == bytes(&format!("designs/{design}.table")));
            let names = fs::read_to_string(format!("{table}.names")).unwrap();
            assert_eq!(names, text(&format!("designs/{design}.table.names")));
            let stale = text("designs/lease.table.names");
            fs::write(format!("{table}.names"), stale).unwrap();
        }
    }
    assert_eq!(files(&folder).len(), 10);
}

/// One word, whatever the text is called.
#[test]
fn the_source_is_one_word() {
    let folder = folder("named_sources");
    let table = format!("{folder}/t");
    for (name, shown) in [
        ("plain-1.caisson", "plain-1.caisson"),
        ("two words\n.caisson", "two_words_.caisson"),
        ("é", "__"),
    ] {
        let source = format!("{folder}/{name}");
        fs::copy(path("designs/lease.caisson"), &source).unwrap();
        assert_eq!(caisson(&["assemble", &source, &table]), silent());
        let names = fs::read_to_string(format!("{table}.names")).unwrap();
        assert_eq!(names.lines().nth(1), Some(&*format!("source {shown}")));
        assert_eq!(caisson(&["print", &table]).0, Some(0));
    }
}

/// What is printed with names is assembled to the same two files, but for source and lines.
#[test]
fn print_uses_them() {
    let folder = folder("named_prints");
    for design in ["two_groups", "slot", "lease", "counter"] {
        let (status, out, err) = caisson(&["print", &format!("{design}.table")]);
        assert_eq!((status, err.as_str()), (Some(0), ""));
        let source = format!("{folder}/{design}.caisson");
        let table = format!("{folder}/{design}.table");
        fs::write(&source, &out).unwrap();
        assert_eq!(caisson(&["assemble", &source, &table]), silent());
        assert!(fs::read(&table).unwrap() == bytes(&format!("designs/{design}.table")));
        let names = |text: String| {
            let lines = text
                .lines()
                .map(|line| line.rsplit_once(' ').unwrap().0.to_string());
            lines.collect::<Vec<String>>()
        };
        let new = fs::read_to_string(format!("{table}.names")).unwrap();
        assert_eq!(
            names(new),
            names(text(&format!("designs/{design}.table.names")))
        );
        assert_eq!(caisson(&["print", &table]), (Some(0), out, err));
    }
}

/// Nothing is said but the fault, and nothing is written, by each command that reads a table.
#[test]
fn one_that_does_not_fit_is_refused() {
    let folder = folder("named_unfit");
    let (table, new) = (format!("{folder}/t"), format!("{folder}/new"));
    let names = format!("{table}.names");
    fs::copy(path("designs/lease.table"), &table).unwrap();
    let right = text("designs/lease.table.names");
    let other = text("designs/two_groups.table.names");
    let wrong = format!(
        "{names}:1: is not of this table: it was made for another, or the table was changed; \
                         assemble it again or remove the names file"
    );
    let twice = format!("{names}:4: `low` is the name of label 0 already");
    for (file, words) in [(other, wrong), (right.replace("1 high", "1 low"), twice)] {
        fs::write(&names, file).unwrap();
        for arguments in [
            &["print", &table][..],
            &["explain", &table],
            &["raise", &table, &new],
            &["prune", &table, &new],
            &["file", &table, &new],
            &["sort", "two_groups.table", &table],
            &["same", "two_groups.table", &table],
            &["compare", &table, "two_groups.table"],
            &["compare", "two_groups.table", &table, "--level", "0"],
        ] {
            assert_eq!(caisson(arguments), failure(&words), "{arguments:?}");
            assert_eq!(files(&folder), ["t", "t.names"]);
        }
    }
    // The same of a gate table, and of an old one, whose sum is that of its own bytes.
    fs::copy(path("designs/counter.table"), &table).unwrap();
    let wrong = format!("{names}:1: is not of this table: ");
    for arguments in [["print", &table], ["explain", &table]] {
        let (status, out, err) = caisson(&arguments);
        assert_eq!((status, out.as_str()), (Some(2), ""));
        assert!(err.starts_with(&wrong), "{err}");
    }
    fs::copy(path("tools/tests/data/lease_format_2.table"), &table).unwrap();
    let (status, _, err) = caisson(&["upgrade", &table, &new]);
    assert!(status == Some(2) && err.starts_with(&wrong), "{err}");
    // What cannot be read is no names file that is not there.
    fs::remove_file(&names).unwrap();
    fs::create_dir(&names).unwrap();
    let (status, out, err) = caisson(&["print", &table]);
    assert_eq!((status, out.as_str()), (Some(2), ""));
    assert!(err.contains("format 2"), "{err}");
    fs::copy(path("designs/lease.table"), &table).unwrap();
    let words = format!("{names}: Is a directory (os error 21)");
    assert_eq!(caisson(&["print", &table]), failure(&words));
    assert_eq!(files(&folder), ["t", "t.names"]);
}

/// By a name that is too long for `.names` behind it a table is read as ever.
#[test]
fn a_long_name_has_no_names_file() {
    let table = format!("{}/{}", folder("named_long"), "t".repeat(252));
    fs::copy(path("designs/lease.table"), &table).unwrap();
    let (status, out, err) = caisson(&["print", &table]);
    assert_eq!((status, err.as_str()), (Some(0), ""));
    assert!(out.starts_with("label l0 -> l1\n"), "{out}");
}

/// What is no names file is never lost, the source least of all.
#[test]
fn what_is_no_names_file_stays() {
    let folder = folder("named_foreign");
    let (table, names) = (format!("{folder}/t"), format!("{folder}/t.names"));
    fs::write(&table, "old").unwrap();
    let source = text("designs/lease.caisson");
    for content in ["", "caisson names", "my own list\n", &source] {
        fs::write(&names, content).unwrap();
        let words = format!("{names}: is there and is no names file, so nothing is written");
        for arguments in [
            &["assemble", "lease.caisson", &table],
            &["assemble", &names, &table],
            &["raise", "guessed.table", &table],
            &["prune", "lease.caisson", &table],
            &["file", "lease.table", &table],
        ] {
            if arguments[1] == names && content != source {
                continue;
            }
            assert_eq!(caisson(arguments), failure(&words), "{arguments:?}");
            assert_eq!(fs::read(&table).unwrap(), b"old");
            assert_eq!(fs::read_to_string(&names).unwrap(), content);
        }
    }
    fs::remove_file(&names).unwrap();
    fs::create_dir(&names).unwrap();
    let words = format!("{names}: is there and is no names file, so nothing is written");
    assert_eq!(
        caisson(&["assemble", "lease.caisson", &table]),
        failure(&words)
    );
    assert_eq!(fs::read(&table).unwrap(), b"old");
    assert_eq!(files(&folder), ["t", "t.names"]);
}

/// Where the file system takes no byte, and where it takes the table and not the names.
#[test]
fn a_failure_leaves_both() {
    let folder = folder("named_half");
    let (table, names) = (format!("{folder}/t"), format!("{folder}/t.names"));
    let source = format!("{folder}/long.caisson");
    let long = "l".repeat(2_000);
    fs::write(&source, text("designs/lease.caisson").replace("low", &long)).unwrap();
    for (blocks, at_fault) in [(0, &table), (1, &names)] {
        for before in [None, Some(text("designs/lease.table.names"))] {
            fs::write(&table, "old").unwrap();
            let _ = fs::remove_file(&names);
            if let Some(before) = &before {
                fs::write(&names, before).unwrap();
            }
            let mut command = Command::new("bash");
            let limited = format!(r#"trap "" XFSZ; ulimit -f {blocks}; exec "$0" "$@""#);
            command.args(["-c", &limited, env!("CARGO_BIN_EXE_caisson")]);
            command.args(["assemble", &source, &table]);
            let words = format!("{at_fault}: File too large (os error 27)");
            assert_eq!(called(command), failure(&words));
            assert_eq!(fs::read(&table).unwrap(), b"old");
            assert_eq!(fs::read_to_string(&names).ok(), before);
            assert_eq!(files(&folder).len(), 2 + usize::from(before.is_some()));
        }
    }
    // A text that is wrong, and a folder that is not there.
    let (status, _, err) = caisson(&["assemble", "lease.table", &table]);
    assert_eq!(status, Some(2), "{err}");
    assert_eq!(fs::read(&table).unwrap(), b"old");
    let none = format!("{folder}/none/t");
    let words = format!("{none}: No such file or directory (os error 2)");
    assert_eq!(
        caisson(&["assemble", "lease.caisson", &none]),
        failure(&words)
    );
    assert_eq!(files(&folder), ["long.caisson", "t", "t.names"]);
}

/// A pipe has nothing beside it. The link to standard output is one of the test's own: were it taken for a file, the
/// link would be lost, and that of the machine serves others.
#[test]
fn a_pipe_has_no_names() {
    let folder = folder("named_pipe");
    let (link, pipe) = (format!("{folder}/link"), format!("{folder}/pipe"));
    std::os::unix::fs::symlink("/proc/self/fd/1", &link).unwrap();
    let mut command = Command::new(env!("CARGO_BIN_EXE_caisson"));
    command.args(["assemble", "lease.caisson", &link]);
    let output = command.current_dir(path("designs")).output().unwrap();
    assert_eq!((output.status.code(), output.stderr), (Some(0), Vec::new()));
    assert!(output.stdout == bytes("designs/lease.table"));
    assert!(fs::symlink_metadata(&link).unwrap().is_symlink());
    let made = Command::new("mkfifo").arg(&pipe).status().unwrap();
    assert!(made.success());
    // Open for both, so that no end waits for the other.
    let mut options = fs::OpenOptions::new();
    let end = options.read(true).write(true).open(&pipe).unwrap();
    assert_eq!(caisson(&["assemble", "lease.caisson", &pipe]), silent());
    drop(end);
    assert_eq!(files(&folder), ["link", "pipe"]);
}

/// By whatever command: a file in its place would be the end of it.
#[test]
fn a_link_to_no_file_stays() {
    let folder = folder("named_link");
    let (link, text) = (format!("{folder}/link"), format!("{folder}/link.caisson"));
    for link in [&link, &text] {
        std::os::unix::fs::symlink("none", link).unwrap();
    }
    let old = path("tools/tests/data/lease_format_2.table");
    for (arguments, to) in [
        (["assemble", "lease.caisson"], &link),
        (["raise", "guessed.table"], &link),
        (["raise", "guessed.caisson"], &text),
        (["prune", "lease.table"], &link),
        (["file", "lease.caisson"], &link),
        (["upgrade", old.to_str().unwrap()], &link),
    ] {
        let words = format!("{to}: is a link to no file");
        let [command, from] = arguments;
        assert_eq!(caisson(&[command, from, to]), failure(&words));
        assert!(fs::symlink_metadata(to).unwrap().is_symlink());
        assert_eq!(files(&folder), ["link", "link.caisson"]);
    }
}
