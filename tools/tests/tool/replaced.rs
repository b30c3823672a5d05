//! What becomes of a file that is replaced, and how the tool ends where arguments or standard error are odd.

use crate::common::{folder, path, text};
use crate::names_files::{caisson, called, failure, files, silent, Said};
use std::ffi::OsStr;
use std::fs::{self, Permissions};
use std::os::unix::ffi::OsStrExt;
use std::os::unix::fs::{chown, MetadataExt, PermissionsExt};
use std::process::Command;

fn mode(path: &str) -> u32 {
    fs::metadata(path).unwrap().mode() & 0o7777
}

/// Mode and group of the file that was there; a names file that was not has those of the table.
#[test]
fn mode_and_group_stay() {
    let folder = folder("replaced_modes");
    let (table, names) = (format!("{folder}/t"), format!("{folder}/t.names"));
    for (old, old_names, expected) in [(0o600, None, 0o600), (0o640, Some(0o604), 0o604)] {
        for command in ["assemble", "raise", "prune", "file"] {
            fs::write(&table, "old").unwrap();
            fs::set_permissions(&table, Permissions::from_mode(old)).unwrap();
            let _ = fs::remove_file(&names);
            if let Some(mode) = old_names {
                fs::write(&names, text("designs/tank.table.names")).unwrap();
                fs::set_permissions(&names, Permissions::from_mode(mode)).unwrap();
            }
            // Only the superuser has a group to give that is surely another.
            let group = chown(&table, None, Some(12_345)).map(|()| 12_345).ok();
            assert_eq!(caisson(&[command, "lease.caisson", &table]).0, Some(0));
            assert_eq!((mode(&table), mode(&names)), (old, expected), "{command}");
            let kept = fs::metadata(&table).unwrap().gid();
            assert!(group.is_none_or(|group| group == kept), "{command}");
            assert_eq!(files(&folder), ["t", "t.names"]);
        }
    }
    // A text and a drawing too.
    for (command, out) in [("draw", "d.dot"), ("raise", "r.caisson")] {
        let out = format!("{folder}/{out}");
        fs::write(&out, "old").unwrap();
        fs::set_permissions(&out, Permissions::from_mode(0o600)).unwrap();
        assert_eq!(caisson(&[command, "lease.caisson", &out]).0, Some(0));
        assert_eq!(mode(&out), 0o600, "{command}");
        assert!(fs::read_to_string(&out).unwrap() != "old");
    }
}

/// No panic, whichever argument it is.
#[test]
fn an_argument_that_is_not_utf_8() {
    let odd = OsStr::from_bytes(b"caf\xe9");
    for before in [&[][..], &["print"], &["assemble", "lease.caisson"]] {
        let mut command = Command::new(env!("CARGO_BIN_EXE_caisson"));
        command.args(before).arg(odd);
        let words = r#""caf\xE9": an argument has to be UTF-8"#;
        assert_eq!(called(command), failure(words));
    }
}

/// The status is that of the failure: the words alone are lost.
#[test]
fn a_standard_error_that_takes_nothing() {
    for error in ["/dev/full", "&-"] {
        for (arguments, status) in [("", 2), ("print none.table", 2), ("draw leak.caisson", 0)] {
            let mut command = Command::new("bash");
            let call = format!("\"$0\" {arguments} 2>{error} >/dev/null");
            command.args(["-c", &call, env!("CARGO_BIN_EXE_caisson")]);
            let expected: Said = (Some(status), String::new(), String::new());
            assert_eq!(called(command), expected, "{arguments} 2>{error}");
        }
    }
}

/// The largest names file is written, and of one that would be larger nothing is.
#[test]
fn the_largest_names_file() {
    let folder = folder("replaced_largest");
    let (source, table) = (format!("{folder}/s.caisson"), format!("{folder}/t"));
    let names = format!("{table}.names");
    fs::copy(path("designs/lease.caisson"), &source).unwrap();
    assert_eq!(caisson(&["assemble", &source, &table]), silent());
    let room = (1 << 20) - fs::metadata(&names).unwrap().len() as usize;
    for (more, fits) in [(room, true), (room + 1, false)] {
        fs::write(&table, "old").unwrap();
        fs::remove_file(&names).unwrap();
        let long = format!("wish{}", "_".repeat(more));
        fs::write(
            &source,
            text("designs/lease.caisson").replace("wish", &long),
        )
        .unwrap();
        let said = caisson(&["assemble", &source, &table]);
        if fits {
            assert_eq!(said, silent());
            assert_eq!(fs::metadata(&names).unwrap().len(), 1 << 20);
            assert_eq!(caisson(&["explain", &table]).0, Some(0));
            continue;
        }
        let words = format!(
            "{names}: would have 1048577 bytes, and a names file has at most 1048576: \
             shorter names are needed"
        );
        assert_eq!(said, failure(&words));
        assert_eq!(fs::read(&table).unwrap(), b"old");
        assert_eq!(files(&folder), ["s.caisson", "t"]);
    }
}
