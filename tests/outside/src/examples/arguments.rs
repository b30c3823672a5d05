//! Request E8: bytes that name parameters, and what gotos pass (refusals 19, 16 and 5).

use super::taking::{below, copies, passes, taking, ANY};
use super::{accepted, changed, refused, Example};
use crate::designs::parameters::{LABEL_OF_Q, P, Q};
use crate::reference::image::PORT;
use crate::table::Table;

pub fn examples() -> Vec<Example> {
    let mut examples = register_bytes();
    examples.extend(arguments());
    examples.extend(passed_on());
    examples.extend(ports());
    examples.extend(order());
    examples
}

fn register_bytes() -> Vec<Example> {
    vec![
        accepted("64 := 64", &copies(&[ANY], P, P)),
        accepted("65 := 65", &copies(&[ANY, ANY], Q, Q)),
        refused("19: 64 := r0, no parameter", &copies(&[], P, 0), 19, 2),
        refused("19: 65 := r0, one parameter", &copies(&[ANY], Q, 0), 19, 2),
        refused("19: r3 := 64, no parameter", &copies(&[], 3, P), 19, 1_024),
        refused(
            "19: r3 := 65, one parameter",
            &copies(&[ANY], 3, Q),
            19,
            1_024,
        ),
        refused(
            "19: 65 := 65, the command counts",
            &copies(&[], Q, Q),
            19,
            2,
        ),
        refused("5: 66 := r0", &copies(&[ANY, ANY], 66, 0), 5, 2),
        refused("5: r3 := 66", &copies(&[ANY, ANY], 3, 66), 5, 1_024),
        refused(
            "5: 6 := r0, the count of registers",
            &copies(&[ANY], 6, 0),
            5,
            2,
        ),
        refused("5: r3 := 63", &copies(&[ANY], 3, 63), 5, 1_024),
    ]
}

fn arguments() -> Vec<Example> {
    let middle = &[(1, 3)];
    vec![
        accepted("an argument at its lower bound", &passes(middle, 1, 0)),
        accepted("an argument at its upper bound", &passes(middle, 3, 0)),
        refused(
            "19: an argument below its bounds",
            &passes(middle, 0, 0),
            19,
            1,
        ),
        refused(
            "19: an argument beside its bounds",
            &passes(middle, 2, 0),
            19,
            1,
        ),
        refused(
            "19: an argument above its bounds",
            &passes(&[(0, 1)], 3, 0),
            19,
            1,
        ),
        refused(
            "19: the second argument",
            &passes(&[ANY, (1, 1)], 0, 3),
            19,
            1,
        ),
        accepted("the second argument within", &passes(&[ANY, (1, 1)], 0, 1)),
        refused(
            "19: register 6 as an argument",
            &passes(&[ANY], 6, 0),
            19,
            1,
        ),
        refused("19: 63 as an argument", &passes(&[ANY], 63, 0), 19, 1),
        refused("19: 64, not in scope", &passes(&[ANY], 64, 0), 19, 1),
        refused("19: 65, not in scope", &passes(&[ANY], 65, 0), 19, 1),
        refused("19: 66 as an argument", &passes(&[ANY], 66, 0), 19, 1),
        refused("19: 256 as an argument", &passes(&[ANY], 256, 0), 19, 1),
        refused("19: 320 as an argument", &passes(&[ANY], 320, 0), 19, 1),
        refused("19: an unused first field", &passes(&[], 1, 0), 19, 1),
        refused("19: an unused second field", &passes(&[], 0, 1), 19, 1),
        refused(
            "19: a second field, one parameter",
            &passes(&[ANY], 0, 1),
            19,
            1,
        ),
        refused("19: an unused field of 64", &passes(&[ANY], 0, 64), 19, 1),
        refused("19: an unused field of 256", &passes(&[], 256, 0), 19, 1),
        refused(
            "5: field c of a goto",
            &changed(passes(&[ANY], 0, 0), |table| table.commands[1].c = 1),
            5,
            1,
        ),
    ]
}

/// State 2 passes its first parameter to state 3.
fn passed_on() -> Vec<Example> {
    let mut examples = Vec::new();
    for (sentence, of_2, of_3, place) in [
        ("64 to the same bounds", (1, 3), (1, 3), None),
        ("64 to wider bounds", (1, 1), (0, 3), None),
        ("64 to a wider upper bound", (0, 1), (0, 3), None),
        ("19: 64 to a narrower upper bound", (0, 3), (0, 1), Some(2)),
        ("19: 64 to a narrower lower bound", (0, 3), (1, 3), Some(2)),
        ("19: 64 to bounds beside it", (1, 1), (2, 2), Some(2)),
    ] {
        let table = changed(taking(&[of_2], 0, &[1]), |table| {
            table.commands[2].which = 3;
            let go = table.goto_with(3, &[P]);
            table.state(0, 0, go);
            table.takes(3, &[of_3]);
        });
        examples.push(match place {
            None => accepted(sentence, &table),
            Some(place) => refused(sentence, &table, 19, place),
        });
    }
    examples
}

fn ports() -> Vec<Example> {
    let count_3 = |table: &mut Table| table.states[2].count = 3;
    vec![
        refused("16: a port as an argument", &passes(&[ANY], 4, 0), 16, 1),
        refused(
            "16: a port as a second argument",
            &passes(&[ANY, ANY], 0, 5),
            16,
            1,
        ),
        refused(
            "19: a port in an unused field",
            &passes(&[ANY], 0, 4),
            19,
            1,
        ),
        refused(
            "19: a port in a field of no parameter",
            &passes(&[], 4, 4),
            19,
            1,
        ),
        refused(
            "16 before 19: a count of 3 uses both fields",
            &changed(passes(&[ANY, ANY], 0, 4), count_3),
            16,
            1,
        ),
        refused(
            "16 before 19: a port out of bounds",
            &passes(&[(1, 1)], 4, 0),
            16,
            1,
        ),
        refused(
            "16 at the lowest command, a goto before an assignment",
            &changed(copies(&[ANY], 4, 4), |table| table.commands[1].a = 5),
            16,
            1,
        ),
        refused(
            "16 at the lowest command, an assignment before a goto",
            &changed(copies(&[ANY], 4, 4), |table| table.commands[3].a = 5),
            16,
            2,
        ),
        refused(
            "16: what was inner is a port",
            &changed(passes(&[ANY], 1, 0), |table| table.registers[1].kind = PORT),
            16,
            1,
        ),
    ]
}

fn order() -> Vec<Example> {
    vec![
        refused(
            "8 before 19",
            &changed(passes(&[ANY], 6, 0), |table| table.commands[2].which = 0),
            8,
            2,
        ),
        refused(
            "16 before 19, though at a higher place",
            &changed(copies(&[ANY], 4, 4), |table| table.states[0].count = 1),
            16,
            2,
        ),
        refused(
            "19 at a state before 19 at a lower command",
            &changed(passes(&[ANY], 6, 0), |table| {
                table.states[2].bounds[1].lower = 1
            }),
            19,
            2,
        ),
        refused(
            "19 at the lowest state",
            &changed(taking(&[ANY], 0, &[0]), |table| {
                table.states[2].count = 3;
                table.states[1].label = LABEL_OF_Q;
            }),
            19,
            1,
        ),
        refused(
            "19 before 9",
            &changed(below(Table::fall), |table| {
                table.states[2].label = 1;
                table.commands[1].a = 1;
            }),
            19,
            1,
        ),
        refused(
            "19 before 10, though at a higher place",
            &changed(copies(&[ANY], 0, P), |table| table.commands[3].b = 1),
            19,
            3,
        ),
    ]
}
