//! caisson: designs as source text, for the table format of document 01; and gate tables, of document 02.

mod beside;
mod files;
mod level;
mod placed;
mod shelf;
mod signals;
mod usage;
mod views;

use beside::{keeps, load_named, load_names, load_names_as, write_both, write_table};
use caisson_tools::check::check;
use caisson_tools::compare::compare_named;
use caisson_tools::gates::WireNames;
use caisson_tools::names_file::NamesFile;
use caisson_tools::old;
use caisson_tools::prune::{prune_named, prune_text};
use caisson_tools::raise::{raise_named, raise_text};
use caisson_tools::version;
use caisson_tools::{assemble_named, assemble_placed, explain, gates, library};
use caisson_tools::{print, print_named, read, Faults, Names, Table};
use files::{judged, load_design, load_table, load_text, no_records, replace, same_file, show};
use files::{status, tell, NO_DESIGN, TEXT};
use level::Level;
use std::env;
use std::ffi::OsString;
use std::process::ExitCode;
use std::thread::{self, JoinHandle};

const USAGE: &str = "usage: caisson assemble SOURCE TABLE
       caisson check SOURCE
       caisson print TABLE
       caisson explain TABLE
       caisson explain SOURCE.caisson
       caisson raise TABLE RAISED
       caisson raise SOURCE.caisson RAISED
       caisson prune TABLE PRUNED
       caisson prune SOURCE.caisson PRUNED
       caisson file TABLE FILED
       caisson file SOURCE.caisson FILED
       caisson sort FILE..
       caisson same ONE OTHER
       caisson upgrade OLD NEW
       caisson compare OLD NEW [--level LEVEL]
       caisson draw FILE [OUT]
       caisson lint FILE
       caisson --help
       caisson --version
OLD and NEW of compare, ONE and OTHER of same and each FILE are a TABLE or a SOURCE.caisson";

const NO_TEXT: &str = "a table is raised to a table; `caisson print` makes a text of that";

const NO_PRUNED_TEXT: &str = "a design is pruned to a table; `caisson print` makes a text of that";

/// A table out of the limits may nest 8,191 nodes deep, more than the usual stack takes.
const STACK: usize = 64 << 20;

/// The status where a comparison says nothing for the level that was asked for.
const NOT_SAID: u8 = 3;

/// Ends with 0, with 1 where a design is refused, with 2 on any other failure, with 3 as said above, and `lint` with 4
/// where it has warnings. Only `same` ends with 1 where two designs differ, and with 2 where one is refused.
fn main() -> ExitCode {
    let work = thread::Builder::new().stack_size(STACK).spawn(command);
    let done = match work.map(JoinHandle::join) {
        Ok(Ok(done)) => done,
        Ok(Err(_)) => return ExitCode::from(2),
        Err(error) => Err(format!("no thread: {error}")),
    };
    done.unwrap_or_else(|message| {
        tell(&message);
        ExitCode::from(2)
    })
}

/// Names of files too: they stand in messages and in lists, which are text.
fn argument(given: OsString) -> Result<String, String> {
    let wrong = |given: OsString| format!("{given:?}: an argument has to be UTF-8");
    given.into_string().map_err(wrong)
}

fn command() -> Result<ExitCode, String> {
    version::judged()?;
    let arguments: Result<Vec<String>, String> = env::args_os().skip(1).map(argument).collect();
    let arguments = arguments?;
    let arguments: Vec<&str> = arguments.iter().map(String::as_str).collect();
    match arguments[..] {
        ["--help" | "-h"] | [_, "--help" | "-h"] => {
            show(&format!("{USAGE}\n")).map(|()| ExitCode::SUCCESS)
        }
        ["assemble", source, table] => assemble_file(source, table),
        ["check", source] => check_file(source),
        ["print", table] => print_file(table),
        ["explain", text] if text.ends_with(TEXT) => explain_text(text),
        ["explain", table] => explain_table(table),
        ["raise", from, to] => raise_file(from, to),
        ["prune", from, to] => prune_file(from, to),
        ["file", from, to] => shelf::file(from, to),
        ["sort", ref files @ ..] if !files.is_empty() => shelf::sort(files),
        ["same", one, other] => shelf::same(one, other),
        ["upgrade", old, new] => upgrade_file(old, new),
        ["compare", old, new] => compare_files(old, new, None),
        ["compare", old, new, "--level", level] => compare_files(old, new, Some(Level::of(level)?)),
        ["draw", file] => views::draw(file, None),
        ["draw", file, out] => views::draw(file, Some(out)),
        ["lint", file] => views::lint(file),
        ["--version"] => show(&version::version()).map(|()| ExitCode::SUCCESS),
        _ => Err(usage::refusal(USAGE, &arguments)),
    }
}

fn assemble_file(source: &str, table: &str) -> Result<ExitCode, String> {
    let text = load_text(source)?;
    keeps(source, table, "the source")?;
    let (image, names) =
        assemble_named(source, &text).map_err(|faults| faults.report(source, &text))?;
    write_both(table, &image, Some(&names))?;
    Ok(ExitCode::SUCCESS)
}

/// What is refused stands on standard output, as with `explain`; what is wrong in the text is a failure.
fn check_file(source: &str) -> Result<ExitCode, String> {
    let text = load_text(source)?;
    let checked = check(source, &text).map_err(|faults| faults.report(source, &text))?;
    show(&checked.words)?;
    Ok(status(checked.answer))
}

fn print_file(table: &str) -> Result<ExitCode, String> {
    let image = load_table(table)?;
    if gates::is_table(&image) {
        let records = gates::read(&image).map_err(|why| no_records(table, &why))?;
        let text = match load_names(table, &image)? {
            Some(names) => gates::print_named(&records, &WireNames::of_file(&names)),
            None => gates::print(&records),
        };
        show(&text)?;
        return Ok(ExitCode::SUCCESS);
    }
    if let Some(advice) = old::advice(&image) {
        return Err(format!("{table}: {advice}"));
    }
    let records = read(&image).map_err(|why| no_records(table, &why))?;
    let text = match load_names(table, &image)? {
        Some(names) => print_named(&records, &Names::of_file(&names)),
        None => print(&records),
    };
    show(&text)?;
    Ok(ExitCode::SUCCESS)
}

fn explain_table(table: &str) -> Result<ExitCode, String> {
    let image = load_table(table)?;
    let names = load_names(table, &image)?;
    if gates::is_table(&image) {
        let names = names.as_ref().map(WireNames::of_file);
        let answer = library::gates_check(&image);
        let words = gates::explain::explain_named(&image, names.as_ref(), answer);
        show(&words)?;
        return Ok(status(answer));
    }
    let names = names.as_ref().map(Names::of_file);
    let answer = library::check(&image);
    show(&explain::explain_named(&image, names.as_ref(), answer))?;
    Ok(status(answer))
}

fn explain_text(source: &str) -> Result<ExitCode, String> {
    let text = load_text(source)?;
    let wrong = |faults: Faults| faults.report(source, &text);
    if gates::is_text(&text) {
        let (image, wires) = gates::assemble_placed(&text).map_err(wrong)?;
        let answer = library::gates_check(&image);
        let words = gates::explain::explain_text(&text, &image, &wires, answer);
        show(&words)?;
        return Ok(status(answer));
    }
    let (image, positions) = assemble_placed(&text).map_err(wrong)?;
    let answer = library::check(&image);
    show(&explain::explain_text(&text, &image, &positions, answer))?;
    Ok(status(answer))
}

/// Writes a text where both names are those of texts, else a table; nothing where the design is refused.
fn raise_file(from: &str, to: &str) -> Result<ExitCode, String> {
    keeps(from, to, "the design")?;
    let (raised, text, names) = if from.ends_with(TEXT) {
        let source = load_text(from)?;
        if gates::is_text(&source) {
            return Err(format!("{from}: {NO_DESIGN}"));
        }
        let (raised, text) = raise_text(&source).map_err(|faults| faults.report(from, &source))?;
        (raised, text, NamesFile::of_text(from, &source).ok())
    } else if to.ends_with(TEXT) {
        return Err(format!("{to}: {NO_TEXT}"));
    } else {
        let (image, names) = load_named(from)?;
        let known = names.as_ref().map(Names::of_file);
        (raise_named(&image, known.as_ref()), String::new(), names)
    };
    let mut words = raised.words;
    if raised.answer.number == 0 && to.ends_with(TEXT) {
        replace(to, text.as_bytes()).map_err(|error| format!("{to}: {error}"))?;
    } else if raised.answer.number == 0 {
        words += &write_table(to, &raised.image, names.as_ref())?;
    }
    show(&words)?;
    Ok(status(raised.answer))
}

/// Writes a table; nothing where the design is refused, or where the tool has other words than the library.
fn prune_file(from: &str, to: &str) -> Result<ExitCode, String> {
    keeps(from, to, "the design")?;
    if to.ends_with(TEXT) {
        return Err(format!("{to}: {NO_PRUNED_TEXT}"));
    }
    let (pruned, names) = if from.ends_with(TEXT) {
        let source = load_text(from)?;
        if gates::is_text(&source) {
            return Err(format!("{from}: {NO_DESIGN}"));
        }
        let pruned = prune_text(&source).map_err(|faults| faults.report(from, &source))?;
        (pruned, NamesFile::of_text(from, &source).ok())
    } else {
        let (image, names) = load_named(from)?;
        let known = names.as_ref().map(Names::of_file);
        (prune_named(&image, known.as_ref()), names)
    };
    let mut words = pruned.words.map_err(|why| format!("{from}: {why}"))?;
    if pruned.answer.number == 0 {
        let names = names.map(|names| names.with_states(&pruned.stays));
        words += &write_table(to, &pruned.image, names.as_ref())?;
    }
    show(&words)?;
    Ok(status(pruned.answer))
}

/// The old table stays: a design that was made by hand may have no other copy.
fn upgrade_file(old: &str, new: &str) -> Result<ExitCode, String> {
    let image = load_design(old)?;
    keeps(old, new, "the old table")?;
    let upgraded = old::upgrade(&image).map_err(|why| format!("{old}: {why}"))?;
    let names = load_names_as(old, &image, &upgraded)?;
    show(&write_table(new, &upgraded, names.as_ref())?)?;
    Ok(ExitCode::SUCCESS)
}

/// One file under two names is taken for a slip: nothing would change for anyone.
fn compare_files(old: &str, new: &str, level: Option<Level>) -> Result<ExitCode, String> {
    if same_file(old, new) {
        return Err(format!("{new}: is the old design itself"));
    }
    let (before, after) = match (judged(old)?, judged(new)?) {
        (Ok(before), Ok(after)) => (before, after),
        (before, after) => {
            let refused = [before, after].into_iter().filter_map(Result::err);
            let refused = refused.collect::<Vec<String>>().join("\n");
            show(&format!("{refused}\nOnly accepted designs are compared.\n"))?;
            return Ok(ExitCode::from(1));
        }
    };
    let (names, new_names) = (before.names.as_ref(), after.names.as_ref());
    let (before, after) = (design(old, &before.image)?, design(new, &after.image)?);
    let level = level.map(|level| level.label(old, &before, names));
    let level = level.transpose()?;
    let comparison = compare_named(&before, &after, [names, new_names]);
    let words = comparison.words(level);
    show(&format!(
        "Accepted: {old}, the old design, and {new}, the new one.\n{words}"
    ))?;
    match level {
        Some(level) if !comparison.unchanged(level) => Ok(ExitCode::from(NOT_SAID)),
        _ => Ok(ExitCode::SUCCESS),
    }
}

fn design(path: &str, image: &[u8]) -> Result<Table, String> {
    read(image).map_err(|why| no_records(path, &why))
}
