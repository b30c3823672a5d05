//! Tables that no text makes, printed.

use caisson_tests::designs::lease;
use caisson_tests::table::Table;
use caisson_tools::{assemble, explain, library, print, read};

/// The print of the lease design after a change.
fn printed(change: impl FnOnce(&mut Table)) -> String {
    let mut table = lease();
    change(&mut table);
    print(&read(&table.image()).unwrap())
}

fn assert_line(text: &str, line: &str) {
    assert!(
        text.lines().any(|one| one == line),
        "no line {line} in\n{text}"
    );
}

#[test]
fn shared_nodes_are_shown_once() {
    let text = printed(|table| table.states[4].command = 0);
    assert_line(&text, "state s0 : l0 { fall }");
    assert_line(&text, "state s4 in s2 : l1 { [command 0 again] }");
    assert_line(
        &text,
        "# Used by no state, and left out when this is assembled:",
    );
    assert_line(&text, "# command 12: goto s3");
    assert!(assemble(&text).is_err());
}

/// A node may be its own part, or two may be parts of each other.
#[test]
fn rings_are_shown_once() {
    let text = printed(|table| table.commands[3].b = 3);
    assert_line(&text, "state s1 in s0 : l0 { r0 := 3; [command 3 again] }");
    let text = printed(|table| table.expressions[3].a = 3);
    assert!(text.contains("r0 := [expression 3 again] - 1;"), "{text}");
    assert_line(&text, "# expression 1: r0");
}

#[test]
fn unused_nodes_are_comments() {
    let text = printed(|table| {
        let one = table.read(1);
        let other = table.constant(5);
        table.add(one, other);
        let skip = table.skip();
        let fall = table.fall();
        table.sequence(skip, fall);
    });
    assert_line(&text, "# command 15: skip; fall");
    assert_line(&text, "# expression 8: r1 + 5");
    assert_eq!(assemble(&text).unwrap(), lease().image());
}

#[test]
fn numbers_out_of_range_stand_in_brackets() {
    let text = printed(|table| {
        table.rows = vec![0b1010, 0b10];
        table.registers[0].label = 9;
        table.registers[0].width = 0;
        table.registers[1].kind = 7;
        table.registers[1].width = 33;
        table.states[1].parent = 8;
        table.states[3].command = 99;
        table.commands[4].which = 63;
        table.commands[6].which = 5;
        table.expressions[4].kind = 12;
    });
    assert_line(&text, "label l0 -> [not l0], l1, [label 3]");
    assert_line(&text, "register r0 : [label 9] [width 0] = 3");
    assert_line(&text, "[kind 7] r1 : l1 [width 33] = 0");
    assert_line(&text, "state s1 in [state 8] : l0 { r0 := 3; goto s2 }");
    assert!(text.contains("[register 63] := r0 - 1;"), "{text}");
    assert!(
        text.contains("if [expression 4: bytes 12 0 0 0 0 0 0 0] then fall else goto [state 5]")
    );
    assert_line(&text, "state s3 in s2 : l1 { [command 99] }");
    assert!(assemble(&text).is_err());
}

/// A byte that a kind does not use has no place in the text.
#[test]
fn unused_bytes_are_shown() {
    let text = printed(|table| table.commands[0].c = 1);
    assert_line(
        &text,
        "state s0 : l0 { [command 0: bytes 3 0 0 0 0 0 1 0] }",
    );
}

/// Parts above their owners only have other numbers.
#[test]
fn parts_above_their_owners_are_put_right() {
    let text = printed(|table| {
        table.commands.swap(3, 12);
        table.states[1].command = 12;
        table.states[4].command = 3;
        table.commands.swap(2, 12);
        table.states[1].command = 2;
        table.commands[2].b = 12;
    });
    assert_eq!(assemble(&text).unwrap(), lease().image());
}

#[test]
fn tables_without_records_are_printed() {
    let empty = Table::default();
    assert_eq!(print(&read(&empty.image()).unwrap()), "");
}

/// The full width goes without saying. A reset value too large has a form in the text.
#[test]
fn widths_are_shown() {
    let text = printed(|table| {
        table.registers[0].width = 1;
        table.registers[1].width = 31;
    });
    assert_line(&text, "register r0 : l0 width 1 = 3");
    assert_line(&text, "port r1 : l1 width 31 = 0");
    let image = assemble(&text).unwrap();
    let answer = library::check(&image);
    assert_eq!((answer.number, answer.place), (3, 0));
    assert_line(&printed(|_| ()), "port r1 : l1 = 0");
}

/// Signed operations and constants are explained in the form of the text.
#[test]
fn signed_operations_are_explained() {
    let source = "label low -> high label high register alarm : low = 0 port level : high = -40\n\
                  state root : low { fall }\n\
                  state s in root : low { alarm := level /$ 10 <$ -3; goto s }";
    let image = assemble(source).unwrap();
    let text = explain::explain(&image, library::check(&image));
    let shown = "    r0 := r1 /$ 10 <$ -3\n";
    assert!(text.starts_with("refused by 10 at place 1\n"), "{text}");
    assert!(text.contains(shown), "{text}");
    assert!(text.ends_with("Because:\n    r1 : l1 does not flow to r0 : l0\n"));
}

/// What the tool says of the lease design after a change that has it refused with this number.
fn lease_explained(number: u32, change: impl Fn(&mut Table)) -> String {
    let mut table = lease();
    change(&mut table);
    let image = table.image();
    let answer = library::check(&image);
    assert_eq!(answer.number, number);
    explain::explain(&image, answer)
}

/// Refusal 3 says which fields are wrong.
#[test]
fn registers_are_explained() {
    let explained = |change: &dyn Fn(&mut Table)| {
        let text = lease_explained(3, change);
        let (_, reasons) = text.split_once("\nBecause:\n").unwrap();
        reasons.to_string()
    };
    let none = "    label 2 is none: the design has labels 0 to 1\n";
    let kind = "    kind 2 is neither 0 (inner) nor 1 (port)\n";
    assert_eq!(explained(&|table| table.registers[1].label = 2), none);
    assert_eq!(explained(&|table| table.registers[1].kind = 2), kind);
    for width in [0, 33, 255] {
        assert_eq!(
            explained(&|table| table.registers[1].width = width),
            format!("    width {width} is not from 1 to 32\n")
        );
    }
    let reset = |width: u8, reset: u32| {
        explained(&|table| {
            table.registers[1].width = width;
            table.registers[1].reset = reset;
        })
    };
    let words = "    reset value 1024 is too large: width 10 holds 0 to 1023\n";
    assert_eq!(reset(10, 1_024), words);
    let words = "    reset value 4294967295 is too large: width 31 holds 0 to 2147483647\n";
    assert_eq!(reset(31, u32::MAX), words);
    let all = explained(&|table| {
        table.registers[0].label = 2;
        table.registers[0].kind = 2;
        table.registers[0].width = 1;
    });
    let words = "    reset value 3 is too large: width 1 holds 0 to 1\n";
    assert_eq!(all, format!("{none}{kind}{words}"));
}

/// Refusal 6 names what uses the node.
#[test]
fn uses_are_explained() {
    let explained = |change: &dyn Fn(&mut Table)| lease_explained(6, change);
    let text = explained(&|table| table.commands[3].b = 1);
    assert!(
        text.ends_with("\nUsed by: command 3, command 3\n"),
        "{text}"
    );
    let text = explained(&|table| table.expressions[3].b = 1);
    assert!(
        text.ends_with("\nUsed by: expression 3, expression 3\n"),
        "{text}"
    );
    let text = explained(&|table| {
        table.skip();
    });
    let expected = "It is in the body of no state.\n\nUsed by: nothing\n";
    assert!(text.ends_with(expected), "{text}");
}

/// Refusal 8 says which rule of shape the command breaks.
#[test]
fn shapes_are_explained() {
    for (source, reason) in [
        (
            "state root : l0 { fall } state a in root : l0 { fall }",
            "state s1 has no child",
        ),
        (
            "state root : l0 { goto root }",
            "s0 is the root, which has no sibling",
        ),
        (
            "state root : l0 { fall } state a in root : l0 { goto root }",
            "s0 is the root, which is nobody's sibling",
        ),
        (
            "state root : l0 { fall } state a in root : l0 { fall } state b in a : l0 { goto a }",
            "s1 is no sibling of s2: its parent is s0, and that of s2 is s1",
        ),
        (
            "state root : l0 { fall } state a in root : l0 { if 1 then goto a else skip }",
            "one branch transfers, and the other does not",
        ),
        (
            "state root : l0 { fall } state a in root : l0 { goto a; goto a }",
            "the first part transfers, so the second would never run",
        ),
    ] {
        let image = assemble(&format!("label l0\n{source}")).unwrap();
        let answer = library::check(&image);
        assert_eq!(answer.number, 8, "{source}");
        let text = explain::explain(&image, answer);
        assert!(text.contains(&format!("    {reason}\n")), "{text}");
    }
}

/// Refusal 9 names the parent with each of its falls, and the lowest such child comes first, whatever
/// its parent. `l1` and `l2` cannot be compared.
#[test]
fn default_children_are_explained() {
    let labels = "label l0 -> l1, l2, l3 label l1 -> l3 label l2 -> l3 label l3 port r : l1 = 0";
    for (states, place, reasons) in [
        (
            "state a in root : l1 { if r then { skip; fall } else if r == 2 then goto a else fall }\n\
             state b in a : l2 { goto b }\n\
             state c in a : l0 { goto c }",
            2,
            "    s1 : l1 holds a fall: command 2, command 5\n\
             \x20   s2 : l2 is its default child, the lowest-numbered\n\
             \x20   s1 : l1 does not flow to s2 : l2\n",
        ),
        (
            "state a in root : l1 { fall }\n\
             state b in root : l1 { fall }\n\
             state c in b : l0 { goto c }\n\
             state d in a : l0 { goto d }",
            3,
            "    s2 : l1 holds a fall: command 2\n\
             \x20   s3 : l0 is its default child, the lowest-numbered\n\
             \x20   s2 : l1 does not flow to s3 : l0\n",
        ),
    ] {
        let image = assemble(&format!("{labels}\nstate root : l0 {{ fall }}\n{states}")).unwrap();
        let answer = library::check(&image);
        assert_eq!((answer.number, answer.place), (9, place), "{states}");
        let text = explain::explain(&image, answer);
        assert!(text.ends_with(&format!("\nBecause:\n{reasons}")), "{text}");
    }
}

/// Refusal 2 says which rule of a lattice the rows break.
#[test]
fn lattices_are_explained() {
    for (rows, reason) in [
        (vec![3, 6], "bit 2 is set, and there are 2 labels"),
        (vec![2, 2], "l0 does not flow to itself"),
        (vec![3, 3], "l0 and l1 flow to each other"),
        (vec![1, 2], "l0 is label 0 and does not flow to l1"),
        (
            vec![15, 6, 12, 8],
            "l1 flows to l2, which flows to l3, and l1 does not",
        ),
        (
            vec![7, 2, 4],
            "l1 and l2 have no least common label above them",
        ),
    ] {
        let mut table = lease();
        table.rows = rows;
        let image = table.image();
        let answer = library::check(&image);
        assert_eq!(answer.number, 2, "{:?}", table.rows);
        let text = explain::explain(&image, answer);
        assert!(text.contains(&format!("    {reason}\n")), "{text}");
    }
}
