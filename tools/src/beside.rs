//! The names file beside a table: read with it, written with it, and removed where it would not fit.

use crate::files::{is_other, load_design, replace, same_file, Prepared};
use crate::{placed, signals};
use caisson_tools::names_file::{NamesFile, Shape, ENDING, FIRST, LARGEST};
use std::fs::File;
use std::io::{ErrorKind, Read};
use std::path::{Path, PathBuf};
use std::{fs, io, process};

fn names_path(table: &str) -> String {
    format!("{table}{ENDING}")
}

/// The names of a table; none where no names file is beside it. One that does not fit is a failure.
pub fn load_names(table: &str, image: &[u8]) -> Result<Option<NamesFile>, String> {
    load_names_as(table, image, image)
}

/// Of a table of an old format, by its records as they are in today's.
pub fn load_names_as(table: &str, old: &[u8], today: &[u8]) -> Result<Option<NamesFile>, String> {
    let path = names_path(table);
    let file = match read_names(&path) {
        Ok(file) => file,
        Err(error) if is_none(error.kind()) => return Ok(None),
        Err(error) => return Err(format!("{path}: {error}")),
    };
    let names = NamesFile::read(&file, old, Shape::of(today).as_ref());
    names.map_err(|wrong| format!("{path}:{wrong}"))
}

/// One byte more than the largest has, at most: enough to refuse a larger one.
fn read_names(path: &str) -> io::Result<Vec<u8>> {
    let mut file = Vec::new();
    let most = LARGEST as u64 + 1;
    File::open(path)?.take(most).read_to_end(&mut file)?;
    Ok(file)
}

/// A name that is too long is that of no file.
fn is_none(error: ErrorKind) -> bool {
    matches!(error, ErrorKind::NotFound | ErrorKind::InvalidFilename)
}

/// A design's table, with its names where they are known.
pub fn load_named(path: &str) -> Result<(Vec<u8>, Option<NamesFile>), String> {
    let image = load_design(path)?;
    let names = load_names(path, &image)?;
    Ok((image, names))
}

/// Keeps a command from writing over the design that it reads, or over its names.
pub fn keeps(from: &str, to: &str, what: &str) -> Result<(), String> {
    if same_file(from, to) {
        return Err(format!("{to}: is {what} itself, and would be lost"));
    }
    if same_file(&names_path(from), to) {
        return Err(format!(
            "{to}: is the names file of {from}, and would be lost"
        ));
    }
    Ok(())
}

/// Writes a table, and its names file beside it; where no names are known, the one that is there is removed, and that
/// is said. A failure leaves both as they were.
pub fn write_table(to: &str, image: &[u8], names: Option<&NamesFile>) -> Result<String, String> {
    let names = names.map(|names| names.text(image));
    write_both(to, image, names.as_deref())
}

/// The same with the names file as text. What is there and is no file, such as a pipe, has nothing beside it.
pub fn write_both(to: &str, image: &[u8], names: Option<&str>) -> Result<String, String> {
    let fault = |error| format!("{to}: {error}");
    if is_other(to) {
        replace(to, image).map_err(fault)?;
        return Ok(String::new());
    }
    let beside = names_path(to);
    let there = is_there(&beside)?;
    if let Some(names) = names.filter(|names| names.len() > LARGEST) {
        let length = names.len();
        return Err(format!(
            "{beside}: would have {length} bytes, and a names file has at most {LARGEST}: \
             shorter names are needed"
        ));
    }
    let _held = signals::hold();
    let table = Prepared::new(to, image).map_err(fault)?;
    let change = match Change::begin(&beside, names, there, Path::new(to)) {
        Ok(change) => change,
        Err(error) => {
            table.discard();
            return Err(format!("{beside}: {error}"));
        }
    };
    if let Err(error) = table.put() {
        change.undo();
        return Err(fault(error));
    }
    change.finish();
    match there && names.is_none() {
        true => Ok(format!(
            "{beside} is removed: the names of the new table are not known\n"
        )),
        false => Ok(String::new()),
    }
}

/// Nobody has named this file, so nothing but a names file is replaced or removed there.
fn is_there(path: &str) -> Result<bool, String> {
    let found = match fs::metadata(path) {
        Ok(found) => found,
        Err(error) if is_none(error.kind()) => return Ok(false),
        Err(error) => return Err(format!("{path}: {error}")),
    };
    let begins = || -> io::Result<bool> {
        let mut first = Vec::new();
        let most = FIRST.len() as u64;
        File::open(path)?.take(most).read_to_end(&mut first)?;
        Ok(first == FIRST.as_bytes())
    };
    match found.is_file() && begins().map_err(|error| format!("{path}: {error}"))? {
        true => Ok(true),
        false => Err(format!(
            "{path}: is there and is no names file, so nothing is written"
        )),
    }
}

/// A names file that was put in its place or taken away, and the one that was there. It is not looked for through a
/// link: nobody has named it.
struct Change {
    place: PathBuf,
    before: Option<PathBuf>,
}

impl Change {
    /// The new file is whole before the old one goes. A failure changes nothing. It has mode and group of the old
    /// one or, where there is none, of the table that was there.
    fn begin(path: &str, new: Option<&str>, there: bool, table: &Path) -> io::Result<Change> {
        let own = |name: &str| PathBuf::from(format!("{path}.{}.{name}", process::id()));
        let (part, before) = (own("part"), own("before"));
        let change = Change {
            place: PathBuf::from(path),
            before: there.then_some(before),
        };
        let model = match there {
            true => Path::new(path),
            false => table,
        };
        let write = |new: &str| placed::write(&part, new.as_bytes(), Some(model));
        let begun = new.map_or(Ok(()), write);
        let begun = begun.and_then(|()| change.put(new.is_some().then_some(&part)));
        match begun {
            Ok(()) => Ok(change),
            Err(error) => {
                let _ = fs::remove_file(&part);
                Err(error)
            }
        }
    }

    fn put(&self, part: Option<&PathBuf>) -> io::Result<()> {
        if let Some(before) = &self.before {
            fs::rename(&self.place, before)?;
        }
        let put = part.map_or(Ok(()), |part| fs::rename(part, &self.place));
        if let (Err(_), Some(before)) = (&put, &self.before) {
            let _ = fs::rename(before, &self.place);
        }
        put
    }

    fn undo(&self) {
        let _ = match &self.before {
            Some(before) => fs::rename(before, &self.place),
            None => fs::remove_file(&self.place),
        };
    }

    fn finish(&self) {
        if let Some(before) = &self.before {
            let _ = fs::remove_file(before);
        }
    }
}

#[cfg(test)]
mod tests {
    use super::*;

    /// What a table that cannot be put in its place leaves: the names file as it was, and nothing beside it.
    #[test]
    fn a_change_is_undone() {
        let folder = std::env::temp_dir().join(format!("caisson-beside-{}", process::id()));
        fs::create_dir(&folder).unwrap();
        let names = folder.join("t.names");
        let path = names.to_str().unwrap();
        let none = Path::new("");
        for before in [None, Some("old")] {
            for new in [None, Some("new")] {
                let _ = fs::remove_file(&names);
                if let Some(before) = before {
                    fs::write(&names, before).unwrap();
                }
                let change = Change::begin(path, new, before.is_some(), none).unwrap();
                assert_eq!(fs::read_to_string(&names).ok().as_deref(), new);
                change.undo();
                assert_eq!(fs::read_to_string(&names).ok().as_deref(), before);
                let count = usize::from(before.is_some());
                assert_eq!(fs::read_dir(&folder).unwrap().count(), count);
                let change = Change::begin(path, new, before.is_some(), none).unwrap();
                change.finish();
                assert_eq!(fs::read_to_string(&names).ok().as_deref(), new);
                let count = usize::from(new.is_some());
                assert_eq!(fs::read_dir(&folder).unwrap().count(), count);
            }
        }
        // A folder takes no file in its place.
        let _ = fs::remove_file(&names);
        fs::create_dir(&names).unwrap();
        assert!(Change::begin(path, Some("new"), false, none).is_err());
        assert_eq!(fs::read_dir(&folder).unwrap().count(), 1);
        fs::remove_dir_all(&folder).unwrap();
    }
}
