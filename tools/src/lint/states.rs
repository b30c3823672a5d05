//! States that no run comes to, and states that no run leaves.

use super::uses::each_command;
use super::Warning;
use crate::named::Named;
use crate::prune::reached::{Reached, Why};
use crate::table::node::Command;
use crate::table::place::Place;
use crate::table::Table;

/// Of a state that is not reached nothing is said of how it is left.
pub fn warning(named: &Named, reached: &Reached, state: usize) -> Option<Warning> {
    let name = named.names.state(state as u8);
    let words = if !reached.stays(state) {
        let why = why(named, reached.why(state));
        format!("state `{name}` is never reached: {why}")
    } else if never_left(named.table, state) {
        format!("state `{name}` is never left: it goes to no other state, and nothing above it goes anywhere")
    } else {
        return None;
    };
    Some(Warning {
        place: Place::State(state),
        record: Place::State(state),
        words,
    })
}

/// Of a state that is not reached.
fn why(named: &Named, why: Why) -> String {
    let name = |state: usize| format!("`{}`", named.names.state(state as u8));
    match why {
        Why::Parent(parent) => format!(
            "its parent, state {}, is never reached either",
            name(parent)
        ),
        Why::NoFall(parent) => format!("its parent, state {}, holds no fall", name(parent)),
        Why::NoGoto(others) => match &others[..] {
            [] => "no state goes to it".to_string(),
            [other] => format!(
                "only state {} goes to it, which is never reached either",
                name(*other)
            ),
            others => {
                let others: Vec<String> = others.iter().map(|&other| name(other)).collect();
                let others = others.join(" and ");
                format!("only states {others} go to it, which are never reached either")
            }
        },
        Why::Root | Why::Fall(_) | Why::Goto(_) => unreachable!("the state is reached"),
    }
}

/// It has a state beside it, no goto to that, and none of the states above has a goto: a goto of theirs would end
/// it, or begin again with the default child.
fn never_left(table: &Table, state: usize) -> bool {
    let parent = |state: usize| usize::from(table.states[state].parent);
    let has_sibling =
        (1..table.states.len()).any(|other| other != state && parent(other) == parent(state));
    if state == 0 || !has_sibling || goes(table, state, |to| to != state) {
        return false;
    }
    let mut above = state;
    while above != 0 {
        above = parent(above);
        if goes(table, above, |_| true) {
            return false;
        }
    }
    true
}

/// Whether the body has a goto to such a state.
fn goes(table: &Table, state: usize, such: impl Fn(usize) -> bool) -> bool {
    let mut found = false;
    each_command(table, state, &mut |_, command| {
        if let Command::Goto { state, .. } = command {
            found |= such(state.into());
        }
    });
    found
}
