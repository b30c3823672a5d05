//! The levels for which nothing changes, and what stands in the way of the others.

use super::sides::Sides;
use crate::table::parameters::of_label;
use crate::table::Table;

const UNCHANGED: &str = "Nothing changes: the level sees equal runs of both designs, from reset, for whole lists \
    of resets, port writes and runs that match at the level (request E14). They match where they have the same \
    resets, the same cycles and the same writes of ports at or below the level, in the same order.\n";

const NOT_SAID: &str =
    "The theorem of request E14 says nothing: what the level sees may change, or may stay as it was.\n";

/// What stands in the way of every level where a record differs.
pub const RECORDS: &str = "It asks for equal labels, registers and state records: see above.";

/// The states with other bodies that are not excepted for a level.
pub struct InTheWay {
    /// Their fixed label is at or below the level.
    seen: Vec<usize>,
    /// They have the label of a parameter.
    bound: Vec<usize>,
}

impl InTheWay {
    pub fn of(table: &Table, bodies: &[usize], level: u8) -> InTheWay {
        let label = |state: usize| table.states[state].label;
        let (bound, mut seen): (Vec<usize>, Vec<usize>) = bodies
            .iter()
            .partition(|&&state| of_label(label(state)).is_some());
        seen.retain(|&state| table.flows(label(state), level));
        InTheWay { seen, bound }
    }

    pub fn is_empty(&self) -> bool {
        self.seen.is_empty() && self.bound.is_empty()
    }

    pub fn words(&self, sides: &Sides) -> String {
        let state = |&state: &usize| sides.state(state);
        let [seen, bound] = [&self.seen, &self.bound]
            .map(|states| states.iter().map(state).collect::<Vec<String>>());
        let seen = match &seen[..] {
            [] => None,
            [one] => Some(format!(
                "State {one} has another body, and its label is at or below it."
            )),
            many => Some(format!(
                "States {} have other bodies, and their labels are at or below it.",
                listed(many)
            )),
        };
        let bound = match &bound[..] {
            [] => None,
            [one] => Some(format!(
                "State {one} has another body, and its label is that of a parameter: \
                 such a body has to be the same for every level."
            )),
            many => Some(format!(
                "States {} have other bodies, and their labels are those of parameters: \
                 such bodies have to be the same for every level.",
                listed(many)
            )),
        };
        let sentences: Vec<String> = seen.into_iter().chain(bound).collect();
        sentences.join(" ")
    }
}

/// Of two or more.
fn listed(states: &[String]) -> String {
    let (last, first) = states.split_last().expect("a state");
    format!("{} and {last}", first.join(", "))
}

/// What the words on levels mean, as far as they were said.
pub fn meaning(unchanged: impl Iterator<Item = bool> + Clone) -> String {
    let said = [(true, UNCHANGED), (false, NOT_SAID)];
    said.into_iter()
        .filter(|(which, _)| unchanged.clone().any(|one| one == *which))
        .map(|(_, meaning)| meaning)
        .collect()
}
