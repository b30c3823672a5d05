//! Gotos and falls as arrows. A fall goes from a state's box to the dot in its frame, and on to the default child:
//! that is where it leads after a reset and after a goto to the state, and else to the child last gone to.

use super::boxes::children;
use super::dot::{markup, quoted, tooltip, Dot};
use super::shorten::{short, whole};
use super::ways::{of_state, End, Way};
use crate::named::Named;

pub fn all(dot: &mut Dot, named: &Named) {
    for state in 0..named.table.states.len() {
        let ways = of_state(named, state);
        let falls = ways.iter().any(|way| way.end == End::Fall);
        default_child(dot, named, state, falls);
        for way in &ways {
            match way.end {
                End::Fall => fall(dot, named, state, way),
                End::Goto {
                    state: to,
                    arguments,
                } => goto(dot, named, state, way, (to, arguments)),
            }
        }
    }
}

/// Where the state holds no fall nothing comes to the dot, and its arrow is dotted.
fn default_child(dot: &mut Dot, named: &Named, state: usize, falls: bool) {
    let Some(&child) = children(named.table, state).first() else {
        return;
    };
    let style = match falls {
        true => "weight=8",
        false => "weight=8, style=dotted",
    };
    if !falls {
        dot.line(&format!("s{state} -> dot{state} [style=invis, weight=8];"));
    }
    let hint = match falls {
        true => format!(
            "{} is the default child of {}",
            named.state(child as u8),
            named.state(state as u8)
        ),
        false => format!("{} holds no fall", named.state(state as u8)),
    };
    dot.line(&format!(
        "dot{state} -> s{child} [{style}, tooltip={}];",
        tooltip(&hint)
    ));
}

fn fall(dot: &mut Dot, named: &Named, state: usize, way: &Way) {
    let hint = format!("{} falls", named.state(state as u8));
    if children(named.table, state).is_empty() {
        dot.line(&format!(
            "nothing{state} [label=\"no child\", style=dashed];"
        ));
        let attributes = attributes(way, &["fall".to_string()], &hint);
        dot.line(&format!(
            "s{state} -> nothing{state} [style=dashed, {attributes}];"
        ));
        return;
    }
    let attributes = attributes(way, &["fall".to_string()], &hint);
    dot.line(&format!(
        "s{state} -> dot{state} [style=dashed, weight=8, {attributes}];"
    ));
}

fn goto(dot: &mut Dot, named: &Named, state: usize, way: &Way, (to, arguments): (u8, [u16; 2])) {
    let given = given(named, state, to, arguments);
    let (from, name) = (named.state(state as u8), named.state(to));
    let with = match given.is_empty() {
        true => String::new(),
        false => format!(" with {}", given.join(", ")),
    };
    let mut attributes = attributes(way, &given, &format!("{from} goes to {name}{with}"));
    if usize::from(to) == state && !attributes.starts_with("label") {
        // Graphviz keeps room for a loop only where it has a label.
        attributes = format!("label={}, {attributes}", spaced(" "));
    }
    if usize::from(to) >= named.table.states.len() {
        dot.line(&format!("s{to} [label={}, style=dashed];", quoted(&name)));
    }
    // What a design declares first stands above, whichever way the arrow goes.
    match usize::from(to) < state {
        true => dot.line(&format!("s{to} -> s{state} [dir=back, {attributes}];")),
        false => dot.line(&format!("s{state} -> s{to} [{attributes}];")),
    }
}

/// `used = north_used`, for each parameter of the state that is gone to.
fn given(named: &Named, state: usize, to: u8, arguments: [u16; 2]) -> Vec<String> {
    let Some(record) = named.table.states.get(usize::from(to)) else {
        return Vec::new();
    };
    let inherited = named.table.inherited(to.into()).len();
    let own = record.parameters().len();
    (0..own)
        .map(|number| {
            let parameter = named.parameter(to.into(), inherited + number);
            format!("{parameter} = {}", named.operand(state, arguments[number]))
        })
        .collect()
}

/// A label with space around it, or else the letters touch the arrow.
fn spaced(lines: &str) -> String {
    format!("<<table border=\"0\" cellpadding=\"3\"><tr><td>{lines}</td></tr></table>>")
}

/// The conditions in short and then more lines; the whole as what is shown below the pointer.
fn attributes(way: &Way, more: &[String], hint: &str) -> String {
    let lines = short(&way.when);
    let more = more.iter().map(|line| format!("<i>{}</i>", markup(line)));
    let lines = lines.iter().map(|line| markup(line)).chain(more);
    let lines: Vec<String> = lines.collect();
    let hint = match whole(&way.when) {
        when if when.is_empty() => hint.to_string(),
        when => format!("{hint} if {when}"),
    };
    let hint = tooltip(&hint);
    match lines.is_empty() {
        true => format!("tooltip={hint}"),
        false => format!(
            "label={}, tooltip={hint}, labeltooltip={hint}",
            spaced(&lines.join("<br/>"))
        ),
    }
}
