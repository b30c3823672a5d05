//! Refusals 16, 19, 20 and 9 to 12 of designs with parameters, explained. What is said here is the tool's own:
//! the answers are given, so that each rule can be looked at.

use caisson_tools::library::Answer;
use caisson_tools::raise::{raise_table, raise_text};
use caisson_tools::{assemble_placed, explain, library, read, Table};

const DECLARED: &str =
    "label low -> north, south, high\nlabel north -> high\nlabel south -> high\n\
                        label high\nregister a : low = 0\nregister b : north = 0\n\
                        register c : south = 0\nport d : low = 0\n\
                        state root : low { fall }\nstate idle in root : low { goto idle }\n";

fn table(states: &str) -> Table {
    let (image, _) = assemble_placed(&format!("{DECLARED}{states}\n")).unwrap();
    read(&image).unwrap()
}

/// What stands behind "Because", where the library refuses the table so.
fn reasons(table: &Table, number: u32, place: usize) -> String {
    let image = table.image();
    let answer = library::check(&image);
    assert_eq!((answer.number, answer.place), (number, place));
    let text = explain::explain(&image, answer);
    let because = text.split_once("\nBecause:\n").expect("a reason").1;
    let lines = because
        .lines()
        .map(|line| line.strip_prefix("    ").unwrap());
    lines.collect::<Vec<_>>().join("\n")
}

/// What a state's record can break.
#[test]
fn states_are_explained() {
    let states = "state s(p : low..high) in root : low { fall }\nstate s0 in s : p { goto s0 }\n\
                  state s1(q : low..high) in s : q { goto s0 }";
    let changed = |change: &dyn Fn(&mut Table), place: usize| {
        let mut table = table(states);
        change(&mut table);
        reasons(&table, 19, place)
    };
    assert_eq!(
        changed(&|table| table.states[0].count = 1, 0),
        "s0 is the root, which has no parameters"
    );
    assert_eq!(
        changed(&|table| table.states[1].count = 1, 1),
        "s1 is the default child of s0, and a default child has no parameters"
    );
    assert_eq!(
        changed(&|table| table.states[3].count = 1, 3),
        "s3 is the default child of s2, and a default child has no parameters"
    );
    assert_eq!(
        changed(&|table| table.states[2].count = 3, 2),
        "count 3: a state has at most 2 parameters"
    );
    assert_eq!(
        changed(&|table| table.states[4].count = 2, 4),
        "3 parameters are in scope, 1 of them of states above: 2 are the most"
    );
    assert_eq!(
        changed(&|table| table.states[2].count = 2, 4),
        "3 parameters are in scope, 2 of them of states above: 2 are the most"
    );
    assert_eq!(
        changed(&|table| table.states[2].bounds[0].upper = 4, 2),
        "bound 4 of p0 is no label: the design has labels 0 to 3"
    );
    assert_eq!(
        changed(&|table| table.states[4].bounds[0].lower = 255, 4),
        "bound 255 of p1 is no label: the design has labels 0 to 3"
    );
    assert_eq!(
        changed(
            &|table| {
                table.states[2].bounds[0].lower = 1;
                table.states[2].bounds[0].upper = 2;
            },
            2
        ),
        "l1, the lower bound of p0, does not flow to l2, the upper one"
    );
    assert_eq!(
        changed(&|table| table.states[1].bounds[1].lower = 1, 1),
        "bounds 1 and 0 of no parameter: what is not used is 0"
    );
    assert_eq!(
        changed(&|table| table.states[2].bounds[1].upper = 3, 2),
        "bounds 0 and 3 of no parameter: what is not used is 0"
    );
    assert_eq!(
        changed(&|table| table.states[0].label = 16, 0),
        "label 16 is that of parameter 0, which is not in scope of s0"
    );
    assert_eq!(
        changed(&|table| table.states[3].label = 17, 3),
        "label 17 is that of parameter 1, which is not in scope of s3"
    );
}

/// What a node can break: where no state does.
#[test]
fn nodes_are_explained() {
    let states = "state s(p : low..north) in root : low { a := a; goto s(a) }\n\
                  state t(x : low..high) in root : high { goto u(x, x) }\n\
                  state u(y : low..high, z : low..high) in root : high { goto u(a, a) }";
    let changed = |change: &dyn Fn(&mut Table), place: usize| {
        let mut table = table(states);
        change(&mut table);
        reasons(&table, 19, place)
    };
    assert_eq!(
        changed(&|table| table.commands[2].which = 65, 2),
        "65 names parameter 1, which is not in scope"
    );
    assert_eq!(
        changed(&|table| table.expressions[0].which = 65, 1_024),
        "65 names parameter 1, which is not in scope"
    );
    assert_eq!(
        changed(&|table| table.commands[3].a = 2, 3),
        "r2 : l2 does not lie within p0 : l0..l1 of s2"
    );
    assert_eq!(
        changed(&|table| table.commands[3].a = 65, 3),
        "65 names parameter 1, which is not in scope"
    );
    for none in [4, 63, 66, 65_535] {
        assert_eq!(
            changed(&|table| table.commands[3].a = none, 3),
            format!("{none}, given to p0 : l0..l1 of s2, is neither a register nor a parameter")
        );
    }
    assert_eq!(
        changed(&|table| table.commands[3].b = 1, 3),
        "field b is 1 and not used, as s2 has 1 parameter: it has to be 0"
    );
    assert_eq!(
        changed(&|table| table.commands[1].a = 64, 1),
        "field a is 64 and not used, as s1 has 0 parameters: it has to be 0"
    );
    // A parameter lies within bounds if it does for its every choice.
    assert_eq!(
        changed(&|table| table.states[4].bounds[0].upper = 1, 5),
        "p0 : l0..l3 does not lie within p0 : l0..l1 of s4 where p0 is l3"
    );
    assert_eq!(
        changed(
            &|table| {
                table.states[4].bounds[1].lower = 1;
                table.commands[6].b = 1;
            },
            5
        ),
        "p0 : l0..l3 does not lie within p1 : l1..l3 of s4 where p0 is l0"
    );
}

/// Each argument of a goto that is a port, and none behind the parameters.
#[test]
fn ports_are_explained() {
    let two = "state s(p : low..high, q : low..high) in root : high { goto s(d, d) }";
    let why = "r3 is a port, and is given to s2";
    assert_eq!(reasons(&table(two), 16, 2), format!("{why}\n{why}"));
    let mut one = table("state s(p : low..high) in root : high { goto s(a) }");
    one.commands[2].b = 3;
    let unused = "field b is 3 and not used, as s2 has 1 parameter: it has to be 0";
    assert_eq!(reasons(&one, 19, 2), unused);
    one.states[2].count = 3;
    assert_eq!(reasons(&one, 16, 2), why);
}

/// With a choice of labels for which the flow fails.
#[test]
fn flows_are_explained() {
    for (states, number, place, expected) in [
        (
            "state s(p : low..north) in root : low { a := p; goto idle }",
            10,
            2,
            "p0 : l0..l1 does not flow to r0 : l0 where p0 is l1",
        ),
        (
            "state s(p : low..north) in root : low { p := b; goto idle }",
            10,
            2,
            "r1 : l1 does not flow to p0 : l0..l1 where p0 is l0",
        ),
        (
            "state s(p : low..north, q : north..high) in root : low { q := p; p := q; goto idle }",
            10,
            3,
            "p1 : l1..l3 does not flow to p0 : l0..l1 where p1 is l3 and p0 is l0",
        ),
        (
            "state s(p : low..high) in root : p { goto idle }",
            11,
            2,
            "s2 : p0 does not flow to s1 : l0 where p0 is l3",
        ),
        // The label of the state named is its own parameter's: that of the argument counts.
        (
            "state s(p : low..north) in root : p { goto s(b) }\nstate t(q : low..high) in root : q { goto s(b) }",
            11,
            3,
            "s3 : p0 does not flow to s2 : l1 (of its argument r1) where p0 is l3",
        ),
        (
            "state s(p : low..high, q : low..high) in root : p { goto s(q, p) }",
            11,
            2,
            "s2 : p0 does not flow to s2 : p1 (of its argument p1) where p0 is l3 and p1 is l0",
        ),
        (
            "state s(p : low..high) in root : low { if p then fall else goto idle }\nstate t in s : p { goto t }",
            12,
            2,
            "p0 : l0..l3 does not flow to s2 : l0 where p0 is l3",
        ),
    ] {
        assert_eq!(reasons(&table(states), number, place), expected, "{states}");
    }
    let states =
        "state s(p : north..high) in root : north { fall }\nstate t in s : south { goto t }";
    assert_eq!(
        reasons(&table(states), 9, 3).lines().last(),
        Some("s2 : l1 does not flow to s3 : l2")
    );
    let states = "state s(p : low..high) in root : north { fall }\nstate t in s : p { goto t }";
    assert_eq!(
        reasons(&table(states), 9, 3).lines().last(),
        Some("s2 : l1 does not flow to s3 : p0 where p0 is l0")
    );
}

/// The line of a text: a state at its name, a goto where it begins.
#[test]
fn texts_are_pointed_at() {
    for (states, number, line) in [
        (
            "state s(p : north..low) in root : p { goto idle }",
            19,
            "state s(p : north..low) in root : p { goto idle }\n          ^\n",
        ),
        (
            "state s(p : low..north) in root : p { goto s(c) }",
            19,
            "state s(p : low..north) in root : p { goto s(c) }\n                                          ^\n",
        ),
        (
            "state s(p : low..north) in root : p { goto s(d) }",
            16,
            "state s(p : low..north) in root : p { goto s(d) }\n                                          ^\n",
        ),
    ] {
        let text = format!("{DECLARED}{states}\n");
        let (image, positions) = assemble_placed(&text).unwrap();
        let answer = library::check(&image);
        assert_eq!(answer.number, number, "{states}");
        let shown = explain::explain_text(&text, &image, &positions, answer);
        let expected = format!("\nIn the text, line 11, column {}", line.lines().last().unwrap().len() - 4);
        assert!(shown.contains(&expected), "{expected}\n{shown}");
        assert!(shown.ends_with(line), "{shown}");
    }
}

#[test]
fn raising_names_the_states_with_parameters() {
    let states = "state s(p : low..north) in root : low { a := b; goto idle }\n\
                  state t in root : low { goto t }\n\
                  state u(p : low..low, q : low..high) in root : q { goto t }";
    let source = format!("{DECLARED}{states}\n");
    let of_table = "\n\nStates with parameters:\n    state s2(p0 : l0..l1) in s0 : l0\n    \
                    state s4(p0 : l0..l0, p1 : l0..l3) in s0 : p1\n";
    let of_text = "\n\nStates with parameters:\n    state s(p : low..north) in root : low\n    \
                   state u(p : low..low, q : low..high) in root : q\n";
    let (image, _) = assemble_placed(&source).unwrap();
    for (raised, expected) in [
        (raise_table(&image), of_table),
        (raise_text(&source).unwrap().0, of_text),
    ] {
        assert_eq!(
            raised.answer,
            Answer {
                number: 20,
                place: 0,
                count: 0
            }
        );
        assert!(raised.words.starts_with("refused by 20 at place 0\n\n"));
        assert!(raised.words.ends_with(expected), "{}", raised.words);
        assert!(raised.image.is_empty());
    }
}
