//! States as boxes. A state with children is a frame that has its own box in it, at the top, and below that a dot
//! whose arrow goes to the default child.

use super::colours;
use super::dot::{markup, tooltip, Dot};
use crate::named::Named;
use crate::table::node::Command;
use crate::table::{parameters, Table};

/// The states that stand in no frame: the root, and those whose parent is none that comes before them.
pub fn all(dot: &mut Dot, named: &Named) {
    for state in 0..named.table.states.len() {
        if parent(named.table, state).is_none() {
            group(dot, named, state);
        }
    }
}

/// In a sound design every state but the root has one.
fn parent(table: &Table, state: usize) -> Option<usize> {
    let parent = usize::from(table.states[state].parent);
    (parent < state).then_some(parent)
}

/// Those that stand in its frame, the default child first.
pub fn children(table: &Table, state: usize) -> Vec<usize> {
    (state + 1..table.states.len())
        .filter(|&child| parent(table, child) == Some(state))
        .collect()
}

fn group(dot: &mut Dot, named: &Named, state: usize) {
    let children = children(named.table, state);
    if children.is_empty() {
        return leaf(dot, named, state);
    }
    dot.open(&format!("subgraph cluster_{state}"));
    dot.line("graph [label=\"\", style=rounded, color=\"#888888\", margin=20];");
    leaf(dot, named, state);
    dot.line(&format!(
        "dot{state} [shape=point, width=0.12, fillcolor=black, tooltip=\"the default child\"];"
    ));
    for child in children {
        group(dot, named, child);
    }
    dot.close();
}

fn leaf(dot: &mut Dot, named: &Named, state: usize) {
    let name = named.state(state as u8);
    let parameters = own_parameters(named, state);
    let label = label(named, state);
    let colours = colours::of_state(named.table, state);
    let sets = sets(named, state);
    let sets_line = match sets.is_empty() {
        true => String::new(),
        false => format!(
            "<br/><font point-size=\"10\">sets {}</font>",
            markup(&few(&sets))
        ),
    };
    let shown = format!(
        "<b>{}</b>{}<br/><i>{}</i>{sets_line}",
        markup(&name),
        markup(&parameters),
        markup(&label)
    );
    let mut hint = format!("state {name}{parameters} : {label}");
    if !sets.is_empty() {
        hint += &format!("; sets {}", sets.join(", "));
    }
    dot.line(&format!(
        "s{state} [label=<{shown}>, {colours}, tooltip={}];",
        tooltip(&hint)
    ));
}

/// In parentheses, with their bounds, or nothing.
fn own_parameters(named: &Named, state: usize) -> String {
    let inherited = named.table.inherited(state).len();
    let own = named.table.states[state].parameters().iter().enumerate();
    let own: Vec<String> = own
        .map(|(number, bounds)| {
            let name = named.parameter(state, inherited + number);
            format!("{name} : {}", named.bounds(*bounds))
        })
        .collect();
    match own.is_empty() {
        true => String::new(),
        false => format!("({})", own.join(", ")),
    }
}

/// Of a parameter with the labels that it can have.
fn label(named: &Named, state: usize) -> String {
    let label = named.table.states[state].label;
    match parameters::of_label(label) {
        None => named.label(label),
        Some(number) => {
            let name = named.parameter(state, number);
            match named.table.scope(state).get(number) {
                Some(bounds) => format!("label of {name}, {}", named.bounds(*bounds)),
                None => name,
            }
        }
    }
}

/// What the body assigns to, each once, in reading order.
fn sets(named: &Named, state: usize) -> Vec<String> {
    let mut read = vec![false; named.table.commands.len()];
    let mut sets = Vec::new();
    let mut next = vec![named.table.states[state].command];
    while let Some(number) = next.pop() {
        let Some(node) = named.table.commands.get(usize::from(number)) else {
            continue;
        };
        if std::mem::replace(&mut read[usize::from(number)], true) {
            continue;
        }
        match Command::of(*node) {
            Some(Command::Assign { register, .. }) => {
                let name = named.operand(state, register.into());
                if !sets.contains(&name) {
                    sets.push(name);
                }
            }
            Some(Command::Sequence { first, second }) => next.extend([second, first]),
            Some(Command::If {
                then, otherwise, ..
            }) => next.extend([otherwise, then]),
            _ => (),
        }
    }
    sets
}

/// The most names that a box has room for.
const NAMES: usize = 4;

pub fn few(names: &[String]) -> String {
    match names.len() {
        count if count > NAMES => {
            let more = count - (NAMES - 1);
            format!("{} and {more} more", names[..NAMES - 1].join(", "))
        }
        _ => names.join(", "),
    }
}
