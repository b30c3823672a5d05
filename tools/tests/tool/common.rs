//! What several tests need.

use caisson_tools::{assemble_placed, explain, library};
use std::fs;
use std::path::PathBuf;
use std::process::Command;
use std::thread;

/// What is said of the text `label low\nstate root : high { fall }`, behind the name of its file.
pub const HIGH_FAULT: &str = ":2:14: expected the name of a label, found `high`
    state root : high { fall }
                 ^";

/// What is said of the bytes `label \xff`.
pub const BYTE_FAULT: &str = ":1:7: expected UTF-8, found the byte 0xFF
    label \u{fffd}
          ^
    hint: save the text as UTF-8";

/// A file or folder of the repository.
pub fn path(name: &str) -> PathBuf {
    PathBuf::from(concat!(env!("CARGO_MANIFEST_DIR"), "/..")).join(name)
}

pub fn text(name: &str) -> String {
    fs::read_to_string(path(name)).unwrap_or_else(|error| panic!("{name}: {error}"))
}

/// A folder of its own for the files of one test, empty.
pub fn folder(name: &str) -> String {
    let folder = format!("{}/{name}", env!("CARGO_TARGET_TMPDIR"));
    let _ = fs::remove_dir_all(&folder);
    fs::create_dir_all(&folder).unwrap();
    folder
}

pub fn bytes(name: &str) -> Vec<u8> {
    fs::read(path(name)).unwrap_or_else(|error| panic!("{name}: {error}"))
}

/// The files of designs/ with this extension, without it, sorted.
pub fn designs(extension: &str) -> Vec<String> {
    let files = fs::read_dir(path("designs")).expect("the folder of designs");
    let paths = files.map(|file| file.expect("a file").path());
    let mut names: Vec<String> = paths
        .filter(|path| path.extension().is_some_and(|found| found == extension))
        .map(|path| path.file_stem().unwrap().to_string_lossy().into_owned())
        .collect();
    names.sort();
    names
}

/// The designs of the folder that have a text, without the gate tables.
pub fn designs_alone() -> Vec<String> {
    let mut names = designs("caisson");
    names.retain(|name| !caisson_tools::gates::is_table(&bytes(&format!("designs/{name}.table"))));
    names
}

/// A design with three registers, whose state `s` has this body.
pub fn with_body(body: &str) -> String {
    format!(
        "label low\nregister a : low = 0\nregister b : low = 0\nport c : low = 0\n\
         state root : low {{ fall }}\nstate s in root : low {{ {body} }}\n"
    )
}

/// What is said of a text: its verdict in its names, and its line.
pub fn explained_text(source: &str) -> String {
    let (image, positions) = assemble_placed(source).unwrap();
    let answer = library::check(&image);
    let shown = explain::explain_text(source, &image, &positions, answer);
    assert!(answer.number == 0 || shown.contains("\nIn the text, line "));
    shown
}

/// With the stack of the tool, for what nests deep.
pub fn on_large_stack(work: impl FnOnce() + Send + 'static) {
    let thread = thread::Builder::new().stack_size(64 << 20).spawn(work);
    thread.unwrap().join().unwrap();
}

/// Status, standard output and standard error of the tool, in the folder of designs.
pub fn said(arguments: &[&str]) -> (Option<i32>, String, String) {
    let mut command = Command::new(env!("CARGO_BIN_EXE_caisson"));
    command.args(arguments).current_dir(path("designs"));
    let output = command.output().unwrap();
    let [out, err] = [output.stdout, output.stderr].map(|text| String::from_utf8(text).unwrap());
    (output.status.code(), out, err)
}
