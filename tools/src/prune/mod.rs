//! The design without what can never run, which is the proved library's, and what is said of it.

pub(crate) mod reached;

use crate::explain;
use crate::library::{self, Answer};
use crate::names::Names;
use crate::table::read::{read, SECTIONS, STATES};
use crate::table::{State, Table};
use crate::text::faults::Faults;
use crate::{numbering, text};
use reached::{Reached, Why};

/// What came of it.
pub struct Pruned {
    pub answer: Answer,
    /// For the user. An error where the library's result has other states than the tool finds reached.
    pub words: Result<String, String>,
    /// The pruned table; empty where it was refused.
    pub image: Vec<u8>,
    /// Of each state of the design whether it stays; empty where it was refused.
    pub stays: Vec<bool>,
}

pub fn prune_table(image: &[u8]) -> Pruned {
    prune_named(image, None)
}

/// With the names of the table, where they are known.
pub fn prune_named(image: &[u8], names: Option<&Names>) -> Pruned {
    let (answer, pruned) = by_library(image);
    let (words, stays) = match (answer.number, read(image)) {
        (0, Ok(table)) => words(&table, &pruned, names),
        _ => (Ok(explain::explain_named(image, names, answer)), Vec::new()),
    };
    Pruned {
        answer,
        words,
        image: pruned,
        stays,
    }
}

pub fn prune_text(source: &str) -> Result<Pruned, Faults> {
    let design = text::parse(source)?;
    let (table, positions) = numbering::number(&design)?;
    let image = table.image();
    let (answer, pruned) = by_library(&image);
    let (words, stays) = match answer.number {
        0 => words(&table, &pruned, Some(&Names::of_text(&design))),
        _ => (
            Ok(explain::explain_text(source, &image, &positions, answer)),
            Vec::new(),
        ),
    };
    Ok(Pruned {
        answer,
        words,
        image: pruned,
        stays,
    })
}

/// An area as long as the image is never too short.
fn by_library(image: &[u8]) -> (Answer, Vec<u8>) {
    let mut out = vec![0; image.len()];
    let answer = library::prune(image, &mut out);
    out.truncate(answer.count);
    (answer, out)
}

/// Of an accepted design: what stays and what goes, and why.
fn words(
    table: &Table,
    pruned: &[u8],
    names: Option<&Names>,
) -> (Result<String, String>, Vec<bool>) {
    let reached = Reached::of(table);
    let stays = (0..table.states.len()).map(|state| reached.stays(state));
    (told(table, &reached, pruned, names), stays.collect())
}

fn told(
    table: &Table,
    reached: &Reached,
    pruned: &[u8],
    names: Option<&Names>,
) -> Result<String, String> {
    let result = read(pruned).ok();
    let agreed = result.filter(|result| agree(table, reached, result));
    let result = agreed.ok_or(OTHER_STATES)?;
    let teller = Teller { reached, names };
    let (all, stay) = (table.states.len(), result.states.len());
    if stay == all {
        return Ok("nothing goes: every state is reached\n".to_string());
    }
    let lines: String = (0..all).map(|state| teller.line(state)).collect();
    let counts = counts(table, &result);
    let go = match all - stay {
        1 => format!("1 of {all} states goes"),
        go => format!("{go} of {all} states go"),
    };
    Ok(format!("{go}:\n{lines}{counts}"))
}

/// Said where the tool would tell the user of other states than those that are written.
const OTHER_STATES: &str =
    "the library's result has other states than the tool finds reached; nothing is written";

/// Whether a result has all labels and registers, and the records of the reached states under their new
/// numbers, apart from command numbers.
fn agree(table: &Table, reached: &Reached, result: &Table) -> bool {
    let stay = (table.states.iter().enumerate()).filter(|&(state, _)| reached.stays(state));
    let expected = stay.map(|(_, state)| State {
        parent: reached.new_number(state.parent.into()) as u8,
        command: 0,
        ..*state
    });
    let found = result.states.iter().map(|state| State {
        command: 0,
        ..*state
    });
    table.rows == result.rows && table.registers == result.registers && expected.eq(found)
}

/// Lines for what was closed up, and for the whole.
fn counts(before: &Table, after: &Table) -> String {
    let counts = before.counts().into_iter().zip(after.counts());
    let named = SECTIONS.into_iter().zip(counts).skip(STATES);
    let bytes = [before, after].map(|table| table.image().len());
    named
        .chain([("bytes", (bytes[0], bytes[1]))])
        .map(|(name, (from, to))| format!("{name}: from {from} to {to}\n"))
        .collect()
}

struct Teller<'a> {
    reached: &'a Reached<'a>,
    names: Option<&'a Names>,
}

impl Teller<'_> {
    /// Whether a state stays, with its new number, and why.
    fn line(&self, state: usize) -> String {
        let name = self.called(state);
        let why = self.why(state);
        match self.reached.stays(state) {
            true => {
                let new = self.reached.new_number(state);
                format!("    state {name} stays as state {new}: {why}\n")
            }
            false => format!("    state {name} goes: {why}\n"),
        }
    }

    fn why(&self, state: usize) -> String {
        match self.reached.why(state) {
            Why::Root => "it is the root".to_string(),
            Why::Fall(parent) => format!("state {} falls to it", self.called(parent)),
            Why::Goto(from) => format!("state {} goes to it", self.called(from)),
            Why::Parent(parent) => format!("its parent, state {}, goes", self.called(parent)),
            Why::NoFall(parent) => {
                format!("its parent, state {}, holds no fall", self.called(parent))
            }
            Why::NoGoto(others) => {
                let others: Vec<String> =
                    others.into_iter().map(|other| self.called(other)).collect();
                let only = match others.len() {
                    0 => String::new(),
                    1 => format!(", only state {}", others[0]),
                    _ => format!(", only states {}", others.join(" and ")),
                };
                format!("no state that stays goes to it{only}")
            }
        }
    }

    /// The number, and the name where it is known.
    fn called(&self, state: usize) -> String {
        match self.names {
            Some(names) => names.numbered_state(state),
            None => state.to_string(),
        }
    }
}

#[cfg(test)]
mod tests {
    use super::*;
    use crate::assemble;

    /// With a spare state among three others.
    fn design() -> Table {
        let source = "label low\nregister r : low = 0\nstate root : low { fall }\n\
                      state a in root : low { goto b }\nstate spare in root : low { goto a }\n\
                      state b in root : low { r := r + 1; goto a }\n";
        read(&assemble(source).unwrap()).unwrap()
    }

    fn said(result: &Table) -> Result<String, String> {
        words(&design(), &result.image(), None).0
    }

    /// What no library gives that is proved: states, labels or registers that the tool would not have told of.
    #[test]
    fn another_result_is_not_told() {
        let table = design();
        let (answer, image) = by_library(&table.image());
        let good = read(&image).unwrap();
        assert_eq!((answer.number, answer.count), (0, image.len()));
        assert!(said(&good).unwrap().starts_with("1 of 4 states goes:\n"));
        let changed = |change: &dyn Fn(&mut Table)| {
            let mut result = good.clone();
            change(&mut result);
            result
        };
        let with_a_spare = table.clone();
        for wrong in [
            with_a_spare,
            changed(&|result| result.states.truncate(2)),
            changed(&|result| result.states[2].parent = 1),
            changed(&|result| result.states[2].label = 1),
            changed(&|result| result.states[1].count = 1),
            changed(&|result| result.registers.clear()),
            changed(&|result| result.rows[0] = 3),
        ] {
            assert_eq!(said(&wrong).unwrap_err(), OTHER_STATES);
        }
        let cut_short = &image[..image.len() - 1];
        assert_eq!(words(&table, cut_short, None).0.unwrap_err(), OTHER_STATES);
    }
}
