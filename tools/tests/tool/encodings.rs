//! Characters that look like nothing, and bytes that are none.

use crate::common::path;
use std::fs;
use std::process::Command;

/// What `caisson` says of these bytes as a text: status and standard error, without the name of the file.
fn said(test: &str, command: &str, bytes: &[u8]) -> (Option<i32>, String) {
    let folder = env!("CARGO_TARGET_TMPDIR");
    let file = format!("{folder}/encoding.{test}.{command}.caisson");
    let table = format!("{file}.table");
    let _ = fs::remove_file(&table);
    fs::write(&file, bytes).unwrap();
    let mut caisson = Command::new(env!("CARGO_BIN_EXE_caisson"));
    caisson.arg(command).arg(&file).current_dir(path("designs"));
    if command == "assemble" {
        caisson.arg(&table);
    }
    let output = caisson.output().unwrap();
    assert!(output.stdout.is_empty());
    assert!(fs::metadata(&table).is_err());
    let words = String::from_utf8(output.stderr).unwrap();
    (output.status.code(), words.replace(&file, ""))
}

const REST: &[u8] = b"label low\nstate root : low { fall }\nstate s in root : low { goto s }\n";

#[test]
fn each_is_named_with_its_place() {
    for (before, words) in [
        (
            &b"\xef\xbb\xbf"[..],
            ":1:1: expected a text without a byte order mark, found U+FEFF\n    \u{feff}label low\n    ^\n    \
             hint: save it as UTF-8 without one\n",
        ),
        (
            "label\u{a0}high\n".as_bytes(),
            ":1:6: expected an ASCII blank, or nothing, found U+00A0, a no-break space\n    label\u{a0}high\n         ^\n",
        ),
        (
            "label high\u{200b}\n".as_bytes(),
            ":1:11: expected an ASCII blank, or nothing, found U+200B, a zero-width space\n    label high\u{200b}\n              ^\n",
        ),
        (
            "label high \u{feff}\n".as_bytes(),
            ":1:12: expected an ASCII blank, or nothing, found U+FEFF, a byte order mark\n    label high \u{feff}\n               ^\n",
        ),
        (
            "label high\u{2003}\n".as_bytes(),
            ":1:11: expected an ASCII blank, or nothing, found U+2003\n    label high\u{2003}\n              ^\n",
        ),
        (
            "port p : low = \u{2013}1\n".as_bytes(),
            ":1:16: expected a name, a number or a symbol, found `\u{2013}` (U+2013)\n    port p : low = \u{2013}1\n                   ^\n",
        ),
        (
            b"label high\x07\n",
            ":1:11: expected a name, a number or a symbol, found U+0007\n    label high\u{fffd}\n              ^\n",
        ),
        (
            b"# caf\xc3\xa9\nlabel \xe9t\xe9\n",
            ":2:7: expected UTF-8, found the byte 0xE9\n    label \u{fffd}t\u{fffd}\n          ^\n    \
             hint: save the text as UTF-8\n\
             :2:9: expected UTF-8, found the byte 0xE9\n    label \u{fffd}t\u{fffd}\n            ^\n    \
             hint: save the text as UTF-8\n",
        ),
        (
            b"# \xe2\x82\n",
            ":1:3: expected UTF-8, found the byte 0xE2\n    # \u{fffd}\u{fffd}\n      ^\n    hint: save the text as UTF-8\n\
             :1:4: expected UTF-8, found the byte 0x82\n    # \u{fffd}\u{fffd}\n       ^\n    hint: save the text as UTF-8\n",
        ),
        (
            b"\xff\xfe#\n",
            ":1:1: expected UTF-8, found the byte 0xFF\n    \u{fffd}\u{fffd}#\n    ^\n    \
             hint: it seems to be UTF-16: save it as UTF-8\n\
             :1:2: expected UTF-8, found the byte 0xFE\n    \u{fffd}\u{fffd}#\n     ^\n    \
             hint: it seems to be UTF-16: save it as UTF-8\n",
        ),
    ] {
        let bytes = [before, REST].concat();
        for command in ["check", "assemble", "explain"] {
            assert_eq!(said("each", command, &bytes), (Some(2), words.to_string()), "{command}");
        }
    }
}

/// Below the line as wide as in it.
#[test]
fn markers_stand_below_odd_blanks() {
    let bytes = ["label\u{3000}high =\n".as_bytes(), REST].concat();
    let words = ":1:6: expected an ASCII blank, or nothing, found U+3000, an ideographic space\n    \
                 label\u{3000}high =\n         ^\n\
                 :1:12: expected `label`, `register`, `port` or `state`, found `=`\n    label\u{3000}high =\n         \u{3000}     ^\n";
    assert_eq!(
        said("markers", "check", &bytes),
        (Some(2), words.to_string())
    );
}

/// What stands in a comment is nobody's concern, and a mark before the first word leaves it the first word.
#[test]
fn comments_have_any_characters() {
    let design =
        "# \u{feff}\u{a0}\u{200b} caf\u{e9}\r\n".to_string() + &String::from_utf8_lossy(REST);
    assert!(caisson_tools::assemble(&design).is_ok());
    let gates = caisson_tools::assemble("\u{feff}gates\ninput a trusted\n").unwrap_err();
    let expected = "line 1, column 1: expected a text without a byte order mark, found U+FEFF";
    assert_eq!(gates.to_string(), expected);
}
