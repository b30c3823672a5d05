//! The commands that show a design or look it over: `draw` and `lint`.

use crate::beside::{keeps, load_names};
use crate::files::{load_table, load_text, replace, show, tell, TEXT};
use caisson_tools::draw::{draw_named, draw_text};
use caisson_tools::lint::{lint_named, lint_text, Linted};
use caisson_tools::{gates, Names};
use std::process::ExitCode;

/// The status of `lint` where it has warnings.
const WARNED: u8 = 4;

/// How the name of a table ends by custom. No drawing is meant to lie there.
const TABLE: &str = ".table";

const NO_DRAWING: &str = "is a gate table; only designs are drawn";

const NO_LINT: &str = "is a gate table; only designs are looked over";

/// A refused design is drawn too, and said to be refused.
pub fn draw(from: &str, to: Option<&str>) -> Result<ExitCode, String> {
    if let Some(to) = to {
        keeps(from, to, "the design")?;
        if to.ends_with(TEXT) || to.ends_with(TABLE) {
            return Err(format!(
                "{to}: is the name of a design; a drawing is a Graphviz text, whose name may end in .dot"
            ));
        }
    }
    let drawing = if from.ends_with(TEXT) {
        let source = text(from, NO_DRAWING)?;
        draw_text(&source).map_err(|faults| faults.report(from, &source))?
    } else {
        let (image, names) = table(from, NO_DRAWING)?;
        draw_named(&image, names.as_ref()).map_err(|why| format!("{from}: {why}"))?
    };
    match to {
        Some(to) => {
            replace(to, drawing.graph.as_bytes()).map_err(|error| format!("{to}: {error}"))?
        }
        None => show(&drawing.graph)?,
    }
    if drawing.answer.number != 0 {
        tell(&format!(
            "{from}: is drawn, but refused by {} at place {}; `caisson explain {from}` says why",
            drawing.answer.number, drawing.answer.place
        ));
    }
    Ok(ExitCode::SUCCESS)
}

pub fn lint(file: &str) -> Result<ExitCode, String> {
    let linted = if file.ends_with(TEXT) {
        let source = text(file, NO_LINT)?;
        lint_text(file, &source).map_err(|faults| faults.report(file, &source))?
    } else {
        let (image, names) = table(file, NO_LINT)?;
        lint_named(file, &image, names.as_ref())
    };
    match linted {
        Linted::Refused(number) => {
            let command = match file.ends_with(TEXT) {
                true => "check",
                false => "explain",
            };
            show(&format!(
                "{file}: the design is refused by {number}; `caisson {command} {file}` says why\n"
            ))?;
            Ok(ExitCode::from(1))
        }
        Linted::Warnings(words) if words.is_empty() => {
            show("no warnings\n")?;
            Ok(ExitCode::SUCCESS)
        }
        Linted::Warnings(words) => {
            show(&words)?;
            Ok(ExitCode::from(WARNED))
        }
    }
}

fn text(path: &str, no_design: &str) -> Result<String, String> {
    let source = load_text(path)?;
    match gates::is_text(&source) {
        true => Err(format!("{path}: {no_design}")),
        false => Ok(source),
    }
}

/// With its names, where they are known.
fn table(path: &str, no_design: &str) -> Result<(Vec<u8>, Option<Names>), String> {
    let image = load_table(path)?;
    if gates::is_table(&image) {
        return Err(format!("{path}: {no_design}"));
    }
    let names = load_names(path, &image)?;
    Ok((image, names.as_ref().map(Names::of_file)))
}
