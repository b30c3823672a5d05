//! Why an image with parameters was accepted or refused, request E8. What 19 finds is found here once more,
//! by the bounds and without choices, and has to be the same; each reason has to be met.

use super::parameter_rules::{first_fault, holds_fall, state_fault, NodeRules, RULES};
use super::tally::Tally;
use crate::answer::Answer;
use crate::reference::context_flows;
use crate::reference::image::{Bounds, Image, ASSIGN, GOTO, INNER, READ};
use crate::reference::limits::{
    EXPRESSION_PLACE, MOST_REGISTERS, PARAMETER_LABEL, PARAMETER_REGISTER,
};
use crate::reference::scopes::parameter;
use crate::table::{Node, Table};

/// Fails where the bounds tell otherwise than the answer.
pub fn note_parameters(tally: &mut Tally, bytes: &[u8], answer: Answer) -> Result<(), String> {
    let Some(table) = Table::open(bytes) else {
        return Ok(());
    };
    match answer.number {
        4 => note_label(tally, &table, answer.place),
        5 => note_byte(tally, &table, answer.place),
        16 => note_port(tally, &table, answer.place),
        19 => return note_nineteen(tally, &table, answer.place),
        0 | 9..=12 => {
            if let Some(fault) = first_fault(&table) {
                return Err(format!("by bounds alone it is 19 at {fault:?}"));
            }
            if table.has_parameters() {
                note_flow(tally, bytes, &table, answer);
            }
        }
        _ => {}
    }
    Ok(())
}

fn note_label(tally: &mut Tally, table: &Table, place: usize) {
    let state = &table.states[place];
    let (label, labels) = (usize::from(state.label), table.rows.len());
    let other = usize::from(state.command) >= table.commands.len()
        || usize::from(state.parent) > place.saturating_sub(1);
    let by_label = !other && label >= labels;
    tally.note("4 by a label from the count to 15", by_label && label < 16);
    tally.note("4 by a label byte of 18", by_label && label == 18);
}

fn note_byte(tally: &mut Tally, table: &Table, place: usize) {
    let none = |byte: u8| usize::from(byte) >= table.registers.len();
    let (low, high) = (
        |byte: u8| none(byte) && usize::from(byte) < MOST_REGISTERS,
        |byte: u8| parameter(byte, PARAMETER_REGISTER).is_none() && byte == 66,
    );
    let node = match place.checked_sub(EXPRESSION_PLACE) {
        Some(number) => &table.expressions[number],
        None => &table.commands[place],
    };
    let assigns = place < EXPRESSION_PLACE && node.kind == ASSIGN;
    let reads = place >= EXPRESSION_PLACE && node.kind == READ;
    tally.note(
        "5 by an assignment to no register",
        assigns && low(node.which),
    );
    tally.note("5 by an assignment to 66", assigns && high(node.which));
    tally.note("5 by a read of no register", reads && low(node.which));
    tally.note("5 by a read of 66", reads && high(node.which));
    let goto = place < EXPRESSION_PLACE && node.kind == GOTO;
    let known = usize::from(node.which) < table.states.len();
    tally.note("5 by field c of a goto", goto && known && node.c != 0);
}

fn note_port(tally: &mut Tally, table: &Table, place: usize) {
    let node = &table.commands[place];
    let goto = node.kind == GOTO;
    let is_port = |field: u16| {
        let register = table.registers.get(usize::from(field));
        register.is_some_and(|register| register.kind != INNER)
    };
    let count = match goto {
        true => table.states[usize::from(node.which)].count,
        false => 0,
    };
    tally.note("16 at an assignment", !goto);
    tally.note("16 by a first field", goto && is_port(node.a));
    tally.note(
        "16 by a second field",
        goto && count >= 2 && !is_port(node.a),
    );
    tally.note("16 at a goto, a count above 2", goto && count > 2);
    let other = first_fault(table);
    tally.note("16 before a 19", other.is_some());
}

fn note_nineteen(tally: &mut Tally, table: &Table, place: usize) -> Result<(), String> {
    let fault = first_fault(table);
    let Some((found, rule)) = fault else {
        return Err("by bounds alone it is no 19".to_string());
    };
    if found != place {
        return Err(format!("by bounds alone it is 19 at {found}, {rule}"));
    }
    for known in RULES {
        tally.note(known, known == rule);
    }
    let at_state = state_fault(table).is_some();
    let nodes = NodeRules::of(table);
    let command = nodes.command_fault().is_some();
    let expression = nodes.expression_fault().is_some();
    tally.note(
        "19 at a state, and a node breaks a rule",
        at_state && (command || expression),
    );
    let both = !at_state && command && expression;
    tally.note("19 at a command, and an expression breaks a rule", both);
    Ok(())
}

/// Of designs with parameters: those accepted, and faults of flow that some choices do not have.
fn note_flow(tally: &mut Tally, bytes: &[u8], table: &Table, answer: Answer) {
    let image = Image::open(bytes).expect("an image with good sections");
    let nodes = NodeRules::of(table);
    match answer.number {
        0 => {
            note_states(tally, table);
            note_gotos(tally, &image, &nodes);
        }
        9 => {
            let parent = usize::from(table.states[answer.place].parent);
            let scope = &nodes.scopes[answer.place];
            let bounds = |state: usize| match parameter(table.states[state].label, PARAMETER_LABEL)
            {
                Some(number) => scope[number],
                None => Bounds {
                    lower: table.states[state].label,
                    upper: table.states[state].label,
                },
            };
            let (from, to) = (bounds(parent), bounds(answer.place));
            tally.note(
                "9, kept by the lower bounds",
                table.flows(from.lower, to.lower),
            );
            tally.note(
                "9, kept by the upper bounds",
                table.flows(from.upper, to.upper),
            );
        }
        _ => note_choices(tally, &image, &nodes, answer),
    }
}

/// The rule is kept for the choice of all lower, or of all upper bounds.
fn note_choices(tally: &mut Tally, image: &Image, nodes: &NodeRules, answer: Answer) {
    let node = &nodes.table.commands[answer.place];
    let state = nodes.commands[answer.place];
    let to = match answer.number {
        10 => nodes.table.label_of(node.which),
        11 => nodes.named(node),
        _ => nodes.table.states[state].label,
    };
    let kept = |bound: fn(&Bounds) -> u8| {
        let choices = context_flows(image, answer.place, to).into_iter();
        let of_bounds = |choice: &[u8]| {
            let mut pairs = nodes.scopes[state].iter().zip(choice);
            pairs.all(|(bounds, label)| bound(bounds) == *label)
        };
        let mut choices = choices.filter(|(choice, _)| of_bounds(choice));
        choices.any(|(_, kept)| kept)
    };
    let (lower, upper) = (kept(|pair| pair.lower), kept(|pair| pair.upper));
    for (number, by_lower, by_upper) in [
        (
            10,
            "10, kept by the lower bounds",
            "10, kept by the upper bounds",
        ),
        (
            11,
            "11, kept by the lower bounds",
            "11, kept by the upper bounds",
        ),
        (
            12,
            "12, kept by the lower bounds",
            "12, kept by the upper bounds",
        ),
    ] {
        if answer.number == number {
            tally.note(by_lower, lower);
            tally.note(by_upper, upper);
        }
    }
    if answer.number == 11 {
        note_argument(tally, image, nodes, answer.place);
    }
}

/// The goto would be right by the upper bound of the parameter whose label the named state has.
fn note_argument(tally: &mut Tally, image: &Image, nodes: &NodeRules, goto: usize) {
    let own = nodes.own_label(&nodes.table.commands[goto]);
    let above = own.is_some_and(|bounds| {
        let choices = context_flows(image, goto, bounds.upper);
        choices.iter().all(|(_, kept)| *kept)
    });
    tally.note(
        "11 by the label of an argument, above it the upper bound",
        above,
    );
}

fn note_states(tally: &mut Tally, table: &Table) {
    let (mut own, mut line) = ([false; 3], false);
    let mut labels = [[false; 2]; 2];
    for (number, state) in table.states.iter().enumerate() {
        let outer = table.first_own(number);
        own[usize::from(state.count)] = true;
        line |= outer == 1 && state.count == 1;
        if let Some(label) = parameter(state.label, PARAMETER_LABEL) {
            labels[usize::from(label >= outer)][label] = true;
        }
    }
    tally.note("accepted, one parameter", own[1]);
    tally.note("accepted, two parameters of one state", own[2]);
    tally.note("accepted, two parameters along a line", line);
    tally.note("accepted, label 16 from above", labels[0][0]);
    tally.note("accepted, label 17 from above", labels[0][1]);
    tally.note("accepted, label 16 its own", labels[1][0]);
    tally.note("accepted, label 17 its own", labels[1][1]);
    let names = |kind: u8, family: &[Node], byte: u8| {
        family
            .iter()
            .any(|node| node.kind == kind && node.which == byte)
    };
    tally.note("accepted, 64 assigned", names(ASSIGN, &table.commands, 64));
    tally.note("accepted, 65 assigned", names(ASSIGN, &table.commands, 65));
    tally.note("accepted, 64 read", names(READ, &table.expressions, 64));
    tally.note("accepted, 65 read", names(READ, &table.expressions, 65));
    let falls =
        |state: usize| table.states[state].label >= PARAMETER_LABEL && holds_fall(table, state);
    let any = (0..table.states.len()).any(falls);
    tally.note("accepted, a fall in a state of a parameter's label", any);
}

fn note_gotos(tally: &mut Tally, image: &Image, nodes: &NodeRules) {
    let table = nodes.table;
    let mut met = [false; 7];
    for (number, node) in table.commands.iter().enumerate() {
        if node.kind != GOTO {
            continue;
        }
        let scope = &nodes.scopes[nodes.commands[number]];
        let pairs = table.states[usize::from(node.which)].pairs();
        for (&field, bounds) in [node.a, node.b].iter().zip(pairs) {
            match parameter(field as u8, PARAMETER_REGISTER) {
                Some(passed) => {
                    met[1] = true;
                    met[2] |= scope[passed] != *bounds;
                }
                None => {
                    let label = table.label_of(field as u8);
                    met[0] = true;
                    met[3] |= label == bounds.lower && label != bounds.upper;
                    met[4] |= label == bounds.upper && label != bounds.lower;
                }
            }
        }
        let (first, second) = (PARAMETER_REGISTER.into(), (PARAMETER_REGISTER + 1).into());
        met[5] |= pairs.len() == 2 && (node.a, node.b) == (second, first);
        // Found once in a design is enough: it takes long.
        if let (false, Some(bounds)) = (met[6], nodes.own_label(node)) {
            let choices = context_flows(image, number, bounds.lower);
            met[6] = choices.iter().any(|(_, kept)| !kept);
        }
    }
    for (reason, met) in [
        "accepted, a register passed",
        "accepted, a parameter passed",
        "accepted, a parameter passed to wider bounds",
        "accepted, a register at its lower bound passed",
        "accepted, a register at its upper bound passed",
        "accepted, two parameters passed in the other order",
        "accepted, a goto by its argument's label, not by the lower bound",
    ]
    .into_iter()
    .zip(met)
    {
        tally.note(reason, met);
    }
}
