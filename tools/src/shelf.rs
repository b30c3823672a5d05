//! The commands of request E12, for a library that files one design under several numberings.

use crate::beside::{keeps, load_named, write_table};
use crate::files::{judged, load_text, show, status, NO_DESIGN, TEXT};
use caisson_tools::filing::{difference_named, file_named, file_text, sorted};
use caisson_tools::names_file::NamesFile;
use caisson_tools::{gates, Names};
use std::process::ExitCode;

const NO_FILED_TEXT: &str = "a design is filed as a table; `caisson print` makes a text of that";

const LINE_BREAK: &str = "a name with a line break cannot be listed";

/// The status where two designs differ in more than node numbers.
const DIFFERENT: u8 = 1;

/// Writes a table; nothing where the design is refused, or where the tool comes to another form.
pub fn file(from: &str, to: &str) -> Result<ExitCode, String> {
    keeps(from, to, "the design")?;
    if to.ends_with(TEXT) {
        return Err(format!("{to}: {NO_FILED_TEXT}"));
    }
    let (filed, names) = if from.ends_with(TEXT) {
        let source = load_text(from)?;
        if gates::is_text(&source) {
            return Err(format!("{from}: {NO_DESIGN}"));
        }
        let filed = file_text(&source).map_err(|faults| faults.report(from, &source))?;
        (filed, NamesFile::of_text(from, &source).ok())
    } else {
        let (image, names) = load_named(from)?;
        let known = names.as_ref().map(Names::of_file);
        (file_named(&image, known.as_ref()), names)
    };
    let mut words = filed.words.map_err(|why| format!("{from}: {why}"))?;
    if filed.answer.number == 0 {
        words += &write_table(to, &filed.image, names.as_ref())?;
    }
    show(&words)?;
    Ok(status(filed.answer))
}

/// A line for each file: the number of its design, and its name as given. Nothing is sorted where one is refused.
pub fn sort(files: &[&str]) -> Result<ExitCode, String> {
    if let Some(broken) = files.iter().find(|name| name.contains('\n')) {
        return Err(format!("{broken:?}: {LINE_BREAK}"));
    }
    let (mut images, mut refused) = (Vec::new(), Vec::new());
    for file in files {
        match judged(file)? {
            Ok(design) => images.push(design.image),
            Err(words) => refused.push(words),
        }
    }
    if !refused.is_empty() {
        let refused = refused.join("\n");
        show(&format!("{refused}\nOnly accepted designs are sorted.\n"))?;
        return Ok(ExitCode::from(1));
    }
    let lines = sorted(&images).into_iter();
    let lines: String = lines
        .map(|(number, place)| format!("{number} {}\n", files[place]))
        .collect();
    show(&lines)?;
    Ok(ExitCode::SUCCESS)
}

/// One line. A refused design is a failure like bad input: nothing is said of the two then.
pub fn same(one: &str, other: &str) -> Result<ExitCode, String> {
    let (first, second) = match (judged(one)?, judged(other)?) {
        (Ok(first), Ok(second)) => (first, second),
        (first, second) => {
            let refused = [first, second].into_iter().filter_map(Result::err);
            let refused = refused.collect::<Vec<String>>().join("\n");
            return Err(format!("{refused}\nOnly accepted designs are compared."));
        }
    };
    let names = [first.names.as_ref(), second.names.as_ref()];
    let found = difference_named(&first.image, &second.image, names);
    let found = found.map_err(|why| format!("{one}, {other}: {why}"))?;
    match found {
        None => {
            show(&format!(
                "{one} and {other} are the same design: they differ at most in node numbers\n"
            ))?;
            Ok(ExitCode::SUCCESS)
        }
        Some(first) => {
            show(&format!("{one} and {other} differ, first in {first}\n"))?;
            Ok(ExitCode::from(DIFFERENT))
        }
    }
}
