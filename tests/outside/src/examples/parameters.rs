//! Request E8: who takes parameters, how many, their bounds and labels (refusals 19 and 4).

use super::taking::{below, nested, taking, ANY};
use super::{accepted, changed, refused, Example};
use crate::designs::parameters::{LABEL_OF_P, LABEL_OF_Q, P};
use crate::designs::{exchange, hidden_choice, largest, line, one_group};
use crate::reference::image::Bounds;
use crate::reference::limits::MOST_STATES;
use crate::table::Table;

pub fn examples() -> Vec<Example> {
    let mut examples = vec![
        accepted("figure 2(c), one body for two groups", &one_group()),
        accepted("two parameters exchanged", &exchange()),
        accepted("two parameters along a line", &line()),
        accepted("what is bound is decided out of sight", &hidden_choice()),
        accepted(
            "every count at its limit, with parameters",
            &largest_taking(),
        ),
    ];
    examples.extend(counts());
    examples.extend(who_takes_none());
    examples.extend(in_scope());
    examples.extend(bounds());
    examples.extend(labels());
    examples
}

/// The largest design, every state but the first two with two parameters.
fn largest_taking() -> Table {
    changed(largest(), |table| {
        for state in 2..MOST_STATES as u8 {
            table.takes(state, &[(0, 15), (0, 0)]);
        }
        for node in &mut table.commands {
            if node.kind == 4 && node.which > 1 {
                (node.a, node.b) = (2, 4);
            }
        }
    })
}

fn counts() -> Vec<Example> {
    let with_count = |count: u8| {
        changed(taking(&[ANY, ANY], 0, &[0, 1]), |table| {
            table.states[2].count = count;
        })
    };
    vec![
        accepted("one parameter", &taking(&[ANY], 0, &[0])),
        accepted("two parameters", &with_count(2)),
        refused("19: a count of 3", &with_count(3), 19, 2),
        refused("19: a count of 255", &with_count(255), 19, 2),
        refused(
            "19: a count of 3 in the root",
            &changed(taking(&[], 0, &[]), |table| table.states[0].count = 3),
            19,
            0,
        ),
    ]
}

fn who_takes_none() -> Vec<Example> {
    let with = |mut table: Table, state: u8| {
        table.takes(state, &[(0, 0)]);
        table
    };
    vec![
        refused(
            "19: a parameter of the root",
            &with(taking(&[], 0, &[]), 0),
            19,
            0,
        ),
        refused(
            "19: a parameter of a default child",
            &with(taking(&[], 0, &[]), 1),
            19,
            1,
        ),
        refused(
            "19: of a default child, its parent falls",
            &with(below(Table::fall), 3),
            19,
            3,
        ),
        refused(
            "19: of a default child, its parent holds no fall",
            &with(below(|table| table.goto(2)), 3),
            19,
            3,
        ),
        accepted(
            "a parameter of the second child",
            &changed(below(|table| table.goto(2)), |table| {
                let go = table.goto_with(4, &[P]);
                table.state(2, 0, go);
                table.takes(4, &[(0, 0)]);
            }),
        ),
    ]
}

fn in_scope() -> Vec<Example> {
    vec![
        accepted("one in scope along a line", &nested(1, 0, 0)),
        accepted("two in scope, one of each state", &nested(1, 1, 0)),
        accepted("two in scope, with a state between", &nested(1, 0, 1)),
        accepted("two in scope, both of the highest", &nested(2, 0, 0)),
        accepted("two in scope, both of the lowest", &nested(0, 0, 2)),
        refused("19: three in scope, two and one", &nested(2, 1, 0), 19, 4),
        refused("19: three in scope, one and two", &nested(1, 2, 0), 19, 4),
        refused("19: three in scope, one each", &nested(1, 1, 1), 19, 6),
        refused("19: three in scope, none between", &nested(2, 0, 1), 19, 6),
        refused("19: four in scope", &nested(2, 2, 0), 19, 4),
    ]
}

fn bounds() -> Vec<Example> {
    let within = |lower: u8, upper: u8, argument: u8| taking(&[(lower, upper)], 0, &[argument]);
    let unused = |bounds: &[(u8, u8)], pair: usize, lower: u8, upper: u8| {
        let arguments = &[0, 0][..bounds.len()];
        changed(taking(bounds, 0, arguments), |table| {
            table.states[2].bounds[pair] = Bounds { lower, upper };
        })
    };
    vec![
        accepted("bounds of one label", &within(1, 1, 1)),
        accepted("bounds 1 to 3", &within(1, 3, 3)),
        refused("19: a lower bound above its upper", &within(3, 1, 1), 19, 2),
        refused(
            "19: bounds that cannot be compared",
            &within(1, 2, 1),
            19,
            2,
        ),
        refused(
            "19: a lower bound at the label count",
            &within(4, 4, 1),
            19,
            2,
        ),
        refused(
            "19: an upper bound at the label count",
            &within(0, 4, 0),
            19,
            2,
        ),
        refused(
            "19: a bound is no parameter's label",
            &within(0, 16, 0),
            19,
            2,
        ),
        refused("19: an upper bound of 255", &within(0, 255, 0), 19, 2),
        refused(
            "19: the bounds of the second parameter",
            &taking(&[ANY, (3, 0)], 0, &[0, 1]),
            19,
            2,
        ),
        refused("19: an unused first pair", &unused(&[], 0, 1, 1), 19, 2),
        refused(
            "19: an unused first upper label",
            &unused(&[], 0, 0, 1),
            19,
            2,
        ),
        refused("19: an unused second pair", &unused(&[], 1, 1, 0), 19, 2),
        refused(
            "19: a second pair with one parameter",
            &unused(&[ANY], 1, 0, 1),
            19,
            2,
        ),
        refused(
            "19: an unused pair of the root",
            &changed(taking(&[], 0, &[]), |table| {
                table.states[0].bounds[1].upper = 3
            }),
            19,
            0,
        ),
    ]
}

fn labels() -> Vec<Example> {
    let labelled = |taken: usize, label: u8| taking(&[ANY, ANY][..taken], label, &[0, 0][..taken]);
    let root = |label: u8| changed(taking(&[], 0, &[]), |table| table.states[0].label = label);
    vec![
        accepted("label byte 16, one parameter", &labelled(1, LABEL_OF_P)),
        accepted("label byte 16, two parameters", &labelled(2, LABEL_OF_P)),
        accepted("label byte 17, two parameters", &labelled(2, LABEL_OF_Q)),
        refused(
            "19: label byte 16, no parameter",
            &labelled(0, LABEL_OF_P),
            19,
            2,
        ),
        refused(
            "19: label byte 17, no parameter",
            &labelled(0, LABEL_OF_Q),
            19,
            2,
        ),
        refused(
            "19: label byte 17, one parameter",
            &labelled(1, LABEL_OF_Q),
            19,
            2,
        ),
        refused("19: label byte 16 of the root", &root(LABEL_OF_P), 19, 0),
        refused("19: label byte 17 of the root", &root(LABEL_OF_Q), 19, 0),
        refused("4: label byte 1 of the root", &root(1), 4, 0),
        refused("4: label byte 18 of the root", &root(18), 4, 0),
        refused("4: label byte 4, the count", &labelled(2, 4), 4, 2),
        refused("4: label byte 15", &labelled(2, 15), 4, 2),
        refused("4: label byte 18", &labelled(2, 18), 4, 2),
        refused("4: label byte 64", &labelled(2, 64), 4, 2),
        accepted(
            "label byte 16 of a state below",
            &changed(nested(1, 0, 0), |table| table.states[6].label = LABEL_OF_P),
        ),
        accepted(
            "label byte 17 is the own one of the state below",
            &changed(nested(1, 1, 0), |table| table.states[4].label = LABEL_OF_Q),
        ),
        refused(
            "19: label byte 16 of a sibling's parameter",
            &changed(taking(&[ANY], 0, &[0]), |table| {
                table.states[1].label = LABEL_OF_P
            }),
            19,
            1,
        ),
    ]
}
