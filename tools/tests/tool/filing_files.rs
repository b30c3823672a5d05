//! `caisson file`, `sort` and `same` as one calls them: the files, what is said of bad ones, and the status.

use crate::common::{self, bytes, folder, path, text};
use std::fs;
use std::io::Read;
use std::process::Command;

/// The status, standard output and standard error.
type Said = (Option<i32>, String, String);

fn called(mut command: Command) -> Said {
    let output = command.output().unwrap();
    let text = |bytes| String::from_utf8(bytes).unwrap();
    (
        output.status.code(),
        text(output.stdout),
        text(output.stderr),
    )
}

fn caisson(arguments: &[&str]) -> Said {
    let mut command = Command::new(env!("CARGO_BIN_EXE_caisson"));
    command.args(arguments).current_dir(path("designs"));
    called(command)
}

/// The names of the files in a folder, sorted.
fn files(folder: &str) -> Vec<String> {
    let files = fs::read_dir(folder).unwrap();
    let mut names: Vec<String> = files
        .map(|file| file.unwrap().file_name().into_string().unwrap())
        .collect();
    names.sort();
    names
}

/// Where nothing is yet, over a file that is longer, and through a link, which stays one.
#[test]
fn a_form_comes_from_either() {
    let folder = folder("filed_tables");
    let link = format!("{folder}/link");
    std::os::unix::fs::symlink("long.table", &link).unwrap();
    let (new, long) = (
        format!("{folder}/new.table"),
        format!("{folder}/long.table"),
    );
    for from in [
        "dosing.table",
        "dosing.caisson",
        "shelf/dosing_end.table",
        "shelf/dosing_leaves.table",
        "shelf/dosing_filed.table",
    ] {
        for to in [&new, &long, &link] {
            fs::write(&long, [1; 2_000]).unwrap();
            let (status, out, err) = caisson(&["file", from, to]);
            assert_eq!((status, err.as_str()), (Some(0), ""));
            let begin = match from.contains("filed") {
                true => "nothing changes: ",
                false => "new numbers: ",
            };
            assert!(out.starts_with(begin) && out.lines().count() == 1, "{out}");
            assert!(fs::read(to).unwrap() == bytes("designs/shelf/dosing_filed.table"));
            // A text has names, and the names file stands beside the name that was given.
            let names = format!("{to}.names");
            assert_eq!(fs::metadata(&names).is_ok(), from == "dosing.caisson");
            let _ = fs::remove_file(&names);
        }
        fs::remove_file(&new).unwrap();
    }
    assert!(fs::symlink_metadata(&link).unwrap().is_symlink());
    assert_eq!(files(&folder), ["link", "long.table"]);
}

/// The examples of the tool's README, which are called beside `designs`, in a folder for what they write.
#[test]
fn the_readme_shows_what_happens() {
    let readme = text("tools/README.md");
    let (_, section) = readme.split_once("## File designs\n").expect("a section");
    let (section, _) = section.split_once("\n## ").unwrap();
    let (_, shown) = section.split_once("```\n").unwrap();
    let (shown, _) = shown.split_once("```").unwrap();
    let folder = folder("filed_readme");
    std::os::unix::fs::symlink(
        path("designs").canonicalize().unwrap(),
        format!("{folder}/designs"),
    )
    .unwrap();
    let mut said = String::new();
    for line in shown.lines().filter(|line| line.starts_with("$ ")) {
        let mut command = Command::new(env!("CARGO_BIN_EXE_caisson"));
        let arguments = line.strip_prefix("$ caisson ").expect("a call of the tool");
        command.args(arguments.split(' ')).current_dir(&folder);
        let (_, out, err) = called(command);
        said += &format!("{line}\n{out}{err}");
    }
    assert_eq!(said, shown);
}

/// Nothing is written, and a file that is there stays; what is said is what `explain` says.
#[test]
fn a_refused_design_is_written_nowhere() {
    let folder = folder("filed_refused");
    let old = format!("{folder}/old.table");
    fs::write(&old, "old").unwrap();
    for design in [
        "leak.caisson",
        "leak.table",
        "cut_short.table",
        "../tools/tests/data/lease_format_2.table",
    ] {
        let expected = caisson(&["explain", design]);
        assert_eq!(expected.0, Some(1));
        assert_eq!(
            caisson(&["file", design, &format!("{folder}/new.table")]),
            expected
        );
        assert_eq!(caisson(&["file", design, &old]), expected);
        assert_eq!(fs::read(&old).unwrap(), b"old");
    }
    assert_eq!(files(&folder), ["old.table"]);
}

/// What cannot be filed or written: nothing on standard output, these words, and no file changed.
#[test]
fn file_says_why_it_cannot() {
    let folder = folder("filed_not");
    let name = |file: &str| format!("{folder}/{file}");
    let [own, link, hard, new, filed_text, nowhere] = [
        "own.table",
        "link",
        "hard",
        "new.table",
        "new.caisson",
        "none/new.table",
    ]
    .map(name);
    fs::write(&own, bytes("designs/dosing.table")).unwrap();
    std::os::unix::fs::symlink("own.table", &link).unwrap();
    fs::hard_link(&own, &hard).unwrap();
    let before = files(&folder);
    let missing = "No such file or directory (os error 2)";
    let directory = "Is a directory (os error 21)";
    let itself = |file: &str| format!("{file}: is the design itself, and would be lost");
    let no_text = "a design is filed as a table; `caisson print` makes a text of that";
    for (from, to, words) in [
        ("none.table", &new[..], format!("none.table: {missing}")),
        ("none.caisson", &new, format!("none.caisson: {missing}")),
        ("dosing.table", &nowhere, format!("{nowhere}: {missing}")),
        ("dosing.table", &folder, format!("{folder}: {directory}")),
        (&folder, &new, format!("{folder}: {directory}")),
        (&own, &own, itself(&own)),
        (&own, &link, itself(&link)),
        (&link, &own, itself(&own)),
        (&own, &hard, itself(&hard)),
        (
            "dosing.table",
            &filed_text,
            format!("{filed_text}: {no_text}"),
        ),
        (
            "dosing.caisson",
            &filed_text,
            format!("{filed_text}: {no_text}"),
        ),
    ] {
        let expected = (Some(2), String::new(), format!("{words}\n"));
        assert_eq!(caisson(&["file", from, to]), expected, "{from} {to}");
        assert_eq!(files(&folder), before, "{from} {to}");
    }
    assert!(fs::read(&own).unwrap() == bytes("designs/dosing.table"));
}

/// What is no design, alike of all three commands, and in each place of `sort` and `same`.
#[test]
fn all_three_say_what_is_no_design() {
    let folder = folder("filed_bad");
    let [wrong, other, new] =
        ["wrong.caisson", "other.caisson", "new.table"].map(|file| format!("{folder}/{file}"));
    fs::write(&wrong, "label low\nstate root : high { fall }\n").unwrap();
    fs::write(&other, b"label \xff").unwrap();
    let no_design =
        "is a gate table; only a design can be raised, pruned, filed, upgraded or compared";
    for (bad, words) in [
        ("none.table", "No such file or directory (os error 2)"),
        ("none.caisson", "No such file or directory (os error 2)"),
        ("", "No such file or directory (os error 2)"),
        (".", "Is a directory (os error 21)"),
        ("counter.table", no_design),
        ("counter.caisson", no_design),
        ("gates_cut_short.table", no_design),
        (&other, common::BYTE_FAULT),
        (&wrong, common::HIGH_FAULT),
    ] {
        // The faults of a text have a place behind the name.
        let part = if words.starts_with(':') { "" } else { ": " };
        let expected = (Some(2), String::new(), format!("{bad}{part}{words}\n"));
        for arguments in [
            &["file", bad, &new][..],
            &["sort", bad],
            &["sort", "lease.table", bad],
            &["sort", bad, "leak.table"],
            &["sort", "leak.table", bad],
            &["same", bad, "lease.table"],
            &["same", "lease.table", bad],
            &["same", "leak.table", bad],
        ] {
            assert_eq!(caisson(arguments), expected, "{arguments:?}");
        }
    }
    assert_eq!(files(&folder), ["other.caisson", "wrong.caisson"]);
    let broken = (
        Some(2),
        String::new(),
        "\"lease\\n.table\": a name with a line break cannot be listed\n".to_string(),
    );
    assert_eq!(caisson(&["sort", "lease.table", "lease\n.table"]), broken);
    for arguments in [
        &["file"][..],
        &["file", "lease.table"],
        &["file", "lease.table", &new, &new],
        &["sort"],
        &["same"],
        &["same", "lease.table"],
        &["same", "lease.table", "lease.table", "lease.table"],
    ] {
        let (status, out, err) = caisson(arguments);
        assert_eq!((status, out.as_str()), (Some(2), ""));
        assert!(err.starts_with("usage: caisson assemble SOURCE TABLE\n"));
        for line in ["file TABLE FILED", "sort FILE..", "same ONE OTHER"] {
            assert!(err.contains(&format!("\n       caisson {line}\n")), "{err}");
        }
    }
}

/// The number of the design and the name as given, which may have blanks; a file may be given twice.
#[test]
fn sort_lists_names_as_given() {
    let folder = folder("sorted");
    let blank = format!("{folder}/a lease.table");
    fs::write(&blank, bytes("designs/shelf/lease_end.table")).unwrap();
    let given = [
        "sort",
        "two_groups.caisson",
        "dosing.table",
        &blank,
        "./lease.table",
        "two_groups.table",
        "lease.caisson",
        "two_groups.table",
    ];
    let expected = format!(
        "1 {blank}\n1 ./lease.table\n1 lease.caisson\n2 two_groups.caisson\n2 two_groups.table\n\
         2 two_groups.table\n3 dosing.table\n"
    );
    assert_eq!(caisson(&given), (Some(0), expected, String::new()));
    let one = (Some(0), "1 lease.table\n".to_string(), String::new());
    assert_eq!(caisson(&["sort", "lease.table"]), one);
}

/// In the words of `explain`, behind the name: `sort` with status 1 and on standard output, as other commands have
/// it; `same`, whose 1 is a difference, with 2 and on standard error.
#[test]
fn a_refused_design_is_neither_sorted_nor_the_same() {
    let explained = |file: &str| format!("{file}: {}", caisson(&["explain", file]).1);
    let [leak, low] = ["leak.caisson", "low_child.table"].map(explained);
    let end = "Only accepted designs are sorted.\n";
    let expected = (Some(1), format!("{leak}\n{low}\n{end}"), String::new());
    let given = ["sort", "leak.caisson", "lease.table", "low_child.table"];
    assert_eq!(caisson(&given), expected);
    let end = "Only accepted designs are compared.\n";
    for (one, other, words) in [
        ("leak.caisson", "lease.table", leak.clone()),
        ("lease.table", "leak.caisson", leak.clone()),
        ("leak.caisson", "low_child.table", format!("{leak}\n{low}")),
    ] {
        let expected = (Some(2), String::new(), format!("{words}\n{end}"));
        assert_eq!(caisson(&["same", one, other]), expected);
    }
}

/// 0 and 1, a line each.
#[test]
fn same_tells_designs_apart() {
    let [lease, groups] = ["lease.table", "two_groups.table"];
    for (one, other) in [
        (lease, "shelf/lease_end.table"),
        ("shelf/lease_leaves.table", "lease.caisson"),
        (lease, lease),
        ("dosing.caisson", "shelf/dosing_filed.table"),
    ] {
        let words =
            format!("{one} and {other} are the same design: they differ at most in node numbers\n");
        assert_eq!(
            caisson(&["same", one, other]),
            (Some(0), words, String::new())
        );
    }
    for (one, other, first) in [
        (lease, "diamond.caisson", "labels: from 2 to 4"),
        (lease, groups, "registers: from 2 to 4"),
        (
            groups,
            "two_groups_edited.table",
            "the body of state 4 (first_a)",
        ),
        (
            "shelf/two_groups_end.table",
            "two_groups_edited.caisson",
            "the body of state 4 (first_a)",
        ),
        (
            "shelf/two_groups_end.table",
            "two_groups_edited.table",
            "the body of state 4",
        ),
    ] {
        let words = format!("{one} and {other} differ, first in {first}\n");
        assert_eq!(
            caisson(&["same", one, other]),
            (Some(1), words, String::new())
        );
    }
}

/// Where the file system takes no byte, what stood under the name still does, and nothing lies beside it.
#[test]
fn nothing_is_half_written() {
    let folder = folder("filed_half");
    let old = format!("{folder}/old.table");
    fs::write(&old, "old").unwrap();
    let mut command = Command::new("bash");
    let limited = r#"trap "" XFSZ; ulimit -f 0; exec "$0" "$@""#;
    command.args(["-c", limited, env!("CARGO_BIN_EXE_caisson")]);
    command.args(["file", "dosing.table", &old]);
    command.current_dir(path("designs"));
    let words = format!("{old}: File too large (os error 27)\n");
    assert_eq!(called(command), (Some(2), String::new(), words));
    assert_eq!(fs::read(&old).unwrap(), b"old");
    assert_eq!(files(&folder), ["old.table"]);
}

/// A pipe has a place of its own: it is written to, and stays a pipe.
#[test]
fn a_pipe_takes_the_form() {
    let pipe = format!("{}/pipe", folder("filed_pipe"));
    let made = Command::new("mkfifo").arg(&pipe).status().unwrap();
    assert!(made.success());
    // Open for both, so that no end waits for the other.
    let mut options = fs::OpenOptions::new();
    let mut end = options.read(true).write(true).open(&pipe).unwrap();
    assert_eq!(caisson(&["file", "dosing.table", &pipe]).0, Some(0));
    let expected = bytes("designs/shelf/dosing_filed.table");
    let mut taken = vec![0; expected.len()];
    end.read_exact(&mut taken).unwrap();
    assert!(taken == expected);
}
