//! What the commands read and write: files, and standard output.

use crate::beside::load_named;
use crate::{placed, signals};
use caisson_tools::names_file::{ENDING, FIRST};
use caisson_tools::{assemble_placed, decode, explain, gates, library, Names};
use std::io::Write;
use std::os::unix::fs::MetadataExt;
use std::path::{Path, PathBuf};
use std::process::ExitCode;
use std::{fs, io, process};

/// How the name of a text ends. Commands that read texts and tables take all else for a table.
pub const TEXT: &str = ".caisson";

/// What is said of a gate table where a design is needed.
pub const NO_DESIGN: &str =
    "is a gate table; only a design can be raised, pruned, filed, upgraded or compared";

/// What is said of a table where a text is needed.
const NO_TEXT: &str =
    "is a table and no text: `caisson print` makes a text of it, `caisson explain` judges it";

/// An accepted design, with its names where they are known.
pub struct Accepted {
    pub image: Vec<u8>,
    pub names: Option<Names>,
}

/// The design, or the words of the library's refusal.
pub fn judged(path: &str) -> Result<Result<Accepted, String>, String> {
    let (image, names, answer, words) = if path.ends_with(TEXT) {
        let text = load_text(path)?;
        if gates::is_text(&text) {
            return Err(format!("{path}: {NO_DESIGN}"));
        }
        let (image, positions) =
            assemble_placed(&text).map_err(|faults| faults.report(path, &text))?;
        let answer = library::check(&image);
        let words = explain::explain_text(&text, &image, &positions, answer);
        (image, Some(positions.into_names()), answer, words)
    } else {
        let (image, names) = load_named(path)?;
        let names = names.as_ref().map(Names::of_file);
        let answer = library::check(&image);
        let words = explain::explain_named(&image, names.as_ref(), answer);
        (image, names, answer, words)
    };
    match answer.number {
        0 => Ok(Ok(Accepted { image, names })),
        _ => Ok(Err(format!("{path}: {words}"))),
    }
}

/// Writes a file beside the one named and then puts it in its place, so that there is never a part of it under
/// the name. What is there and is no file, such as a pipe, is written to.
pub fn replace(path: &str, bytes: &[u8]) -> io::Result<()> {
    match is_other(path) {
        true => fs::write(path, bytes),
        false => {
            let _held = signals::hold();
            Prepared::new(path, bytes)?.put()
        }
    }
}

/// Whether something is there that is no file.
pub fn is_other(path: &str) -> bool {
    fs::metadata(path).is_ok_and(|found| !found.is_file())
}

/// A file that is whole and stands beside its place.
pub struct Prepared {
    beside: PathBuf,
    place: PathBuf,
}

impl Prepared {
    /// A link stays one: the place is that of the file. Where there is none the link would be lost, such as one of
    /// the system's.
    pub fn new(path: &str, bytes: &[u8]) -> io::Result<Prepared> {
        let place = match fs::canonicalize(path) {
            Ok(place) => place,
            Err(_) if fs::symlink_metadata(path).is_ok_and(|found| found.is_symlink()) => {
                return Err(io::Error::other("is a link to no file"))
            }
            Err(_) => PathBuf::from(path),
        };
        let mut beside = place.clone().into_os_string();
        beside.push(format!(".{}.part", process::id()));
        let beside = PathBuf::from(beside);
        let written = placed::write(&beside, bytes, Some(&place));
        let prepared = Prepared { beside, place };
        match written {
            Ok(()) => Ok(prepared),
            Err(error) => {
                prepared.discard();
                Err(error)
            }
        }
    }

    pub fn put(self) -> io::Result<()> {
        let put = fs::rename(&self.beside, &self.place);
        if put.is_err() {
            self.discard();
        }
        put
    }

    pub fn discard(self) {
        let _ = fs::remove_file(self.beside);
    }
}

pub fn status(answer: library::Answer) -> ExitCode {
    ExitCode::from(u8::from(answer.number != 0))
}

pub fn no_records(table: &str, why: &str) -> String {
    format!("{table}: cannot be cut into records: {why}")
}

/// Two names of one file, also through links. What is not there yet is no other file.
pub fn same_file(one: &str, other: &str) -> bool {
    match (fs::metadata(one), fs::metadata(other)) {
        (Ok(one), Ok(other)) => (one.dev(), one.ino()) == (other.dev(), other.ino()),
        _ => false,
    }
}

/// A table or a text. A names file is neither, and is easily given for its table.
fn load(path: &str) -> Result<Vec<u8>, String> {
    let bytes = fs::read(path).map_err(|error| format!("{path}: {error}"))?;
    match (
        bytes.starts_with(FIRST.as_bytes()),
        path.strip_suffix(ENDING),
    ) {
        (false, _) => Ok(bytes),
        (true, Some(table)) => Err(format!("{path}: is a names file: name its table, {table}")),
        (true, None) => Err(format!("{path}: is a names file, and no table or text")),
    }
}

/// Of a design or of gates.
pub fn load_table(path: &str) -> Result<Vec<u8>, String> {
    let bytes = load(path)?;
    match is_no_table(path, &bytes) {
        Some(advice) => Err(format!("{path}: {advice}")),
        None => Ok(bytes),
    }
}

pub fn load_design(path: &str) -> Result<Vec<u8>, String> {
    let image = load_table(path)?;
    match gates::is_table(&image) {
        true => Err(format!("{path}: {NO_DESIGN}")),
        false => Ok(image),
    }
}

pub fn load_text(path: &str) -> Result<String, String> {
    let bytes = load(path)?;
    if is_table(&bytes) {
        return Err(format!("{path}: {NO_TEXT}"));
    }
    decode(bytes).map_err(|(text, faults)| faults.report(path, &text))
}

/// By the first offset. A text has no byte that is 0.
fn is_table(bytes: &[u8]) -> bool {
    gates::is_table(bytes) || bytes.starts_with(&[20, 0])
}

/// What is said where a text stands in the place of a table, by its bytes: a table has some below those of letters,
/// and a text, blanks and line ends apart, has none.
fn is_no_table(path: &str, bytes: &[u8]) -> Option<String> {
    let of_text = |byte: &u8| *byte >= b' ' || matches!(byte, b'\t' | b'\n' | b'\r' | 0x0b | 0x0c);
    let text = !bytes.is_empty() && bytes.iter().all(of_text);
    let name = Path::new(path).with_extension("caisson");
    let name = name.display();
    text.then(|| format!("is a text and no table: name it {name}, or use `caisson check`"))
}

/// On standard error. What cannot be said there is lost, and the status remains.
pub fn tell(words: &str) {
    let _ = writeln!(io::stderr(), "{words}");
}

/// A reader that has gone away is a failure like any other, not a panic.
pub fn show(text: &str) -> Result<(), String> {
    let shown = io::stdout().write_all(text.as_bytes());
    shown.map_err(|error| format!("standard output: {error}"))
}
