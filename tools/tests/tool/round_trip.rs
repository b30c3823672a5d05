//! Tables printed and assembled again.

use crate::common::{bytes, designs_alone, on_large_stack, with_body};
use crate::same_bodies::{same_command, same_commands};
use caisson_tests::generate::random::Random;
use caisson_tests::generate::{any_design, faults, parameterised, Size};
use caisson_tests::{designs::largest, examples, reference, table};
use caisson_tools::{assemble, explain, library, print, read};

fn printed(image: &[u8]) -> String {
    print(&read(image).unwrap())
}

/// What the assembler made comes back to the byte.
fn assert_comes_back(name: &str, image: &[u8]) {
    let again = assemble(&printed(image)).unwrap_or_else(|fault| panic!("{name}: {fault}"));
    assert!(again == image, "{name}");
}

/// Assembles the print of any table and checks that only the numbers of nodes have changed.
fn assert_same_design(name: &str, image: &[u8]) -> Vec<u8> {
    let text = printed(image);
    let again = assemble(&text).unwrap_or_else(|fault| panic!("{name}: {fault}\n{text}"));
    let (one, other) = (read(image).unwrap(), read(&again).unwrap());
    assert_eq!((&one.rows, &one.registers), (&other.rows, &other.registers));
    assert_eq!(one.states.len(), other.states.len());
    // What is too deep is nested anew by the assembler.
    let deep = too_deep(image);
    for (left, right) in one.states.iter().zip(&other.states) {
        assert_eq!((left.parent, left.label), (right.parent, right.label));
        assert_eq!((left.count, left.bounds), (right.count, right.bounds));
        let (left, right) = (left.command, right.command);
        let same = same_command(&one, left, &other, right);
        let same = same || deep && same_commands(&one, left, &other, right);
        assert!(same, "{name}");
    }
    assert_comes_back(name, &again);
    again
}

/// Whether commands are nested too deep.
fn too_deep(image: &[u8]) -> bool {
    let answer = library::check(image);
    answer.number == 7 && answer.place < 1_024
}

#[test]
fn designs_come_back() {
    for name in designs_alone() {
        assert_comes_back(&name, &bytes(&format!("designs/{name}.table")));
    }
}

/// Every operator as either part of every other, in all five trees of three operators, with constants
/// that have a sign in some places and none in others.
#[test]
fn operators_come_back_at_every_nesting() {
    let operators = ["+", "-", "&", "|", "^", "==", "<", "<$", ">>$", "/$"];
    for round in 0..1_000 {
        let [first, second, third] =
            [round / 100, round / 10 % 10, round % 10].map(|one| operators[one]);
        for expression in [
            format!("((a {first} -1) {second} 2147483648) {third} 7"),
            format!("(-1 {first} (a {second} -2147483648)) {third} a"),
            format!("(0 {first} a) {second} (-40 {third} 31)"),
            format!("a {first} ((-1 {second} 2147483647) {third} -1)"),
            format!("-40 {first} (4294967295 {second} (-5 {third} a))"),
        ] {
            let source = with_body(&format!("a := {expression}; goto s"));
            assert_comes_back(&expression, &assemble(&source).unwrap());
        }
    }
}

/// A constant has a sign where it is read as signed, whatever the text had. A reset value has none.
#[test]
fn signs_are_shown_where_they_count() {
    for (text, shown) in [
        ("a <$ 4294967256", "r0 <$ -40"),
        ("4294967256 <$ a", "-40 <$ r0"),
        ("2147483648 /$ 4294967295", "-2147483648 /$ -1"),
        ("2147483647 /$ 0", "2147483647 /$ 0"),
        ("-8 >>$ -1", "-8 >>$ 4294967295"),
        ("a - -40", "r0 - 4294967256"),
        ("a < -40", "r0 < 4294967256"),
        ("a == -1", "r0 == 4294967295"),
        ("-1", "4294967295"),
        ("-1 + -2 <$ a", "4294967295 + 4294967294 <$ r0"),
        ("(-1 <$ a) <$ (-9 >>$ 1)", "(-1 <$ r0) <$ -9 >>$ 1"),
        ("1 - -40 /$ 3", "1 - -40 /$ 3"),
        ("a - (a >>$ 2) /$ 4", "r0 - (r0 >>$ 2) /$ 4"),
        ("(a - b) >>$ 2", "r0 - r1 >>$ 2"),
    ] {
        let image = assemble(&with_body(&format!("a := {text}; goto s"))).unwrap();
        let line = format!("state s1 in s0 : l0 {{ r0 := {shown}; goto s1 }}\n");
        assert!(printed(&image).ends_with(&line), "{text}");
        assert_comes_back(text, &image);
    }
    let tank = printed(&bytes("designs/tank.table"));
    assert!(tank.contains("port r0 : l0 = 4294967256\n"), "{tank}");
}

/// The generator numbers its nodes in any order.
#[test]
fn random_designs_come_back_apart_from_node_numbers() {
    let mut random = Random::new(21);
    for round in 0..150 {
        let size = Size::random(&mut random);
        let image = any_design(&mut random, size).image();
        let again = assert_same_design(&format!("round {round}"), &image);
        assert_eq!(library::check(&again).number, 0);
        assert_eq!(again.len(), image.len());
        assert_same_behaviour(&image, &again, &mut random);
    }
}

#[test]
fn the_largest_design_comes_back() {
    let image = largest().image();
    assert_eq!(assert_same_design("largest", &image).len(), 25_652);
}

fn assert_same_behaviour(one: &[u8], other: &[u8], random: &mut Random) {
    let table = read(one).unwrap();
    let (count, states) = (table.registers.len(), table.states.len());
    let mut areas = [one, other].map(|image| {
        let (mut registers, mut targets) = (vec![0; 4 * count], vec![0; 3 * states]);
        assert_eq!(
            reference::reset(image, &mut registers, &mut targets).number,
            0
        );
        (image, registers, targets)
    });
    for _ in 0..10 {
        let port = random.below(count.max(1));
        let width = table.registers.get(port).map_or(32, |port| port.width);
        let (port, value) = (port as u32, random.value() >> (32 - width));
        for (image, registers, targets) in &mut areas {
            // Refused for an inner register, in both.
            reference::write_port(image, registers, port, value);
            assert_eq!(reference::run(image, registers, targets, 1).count, 1);
        }
        assert_eq!(areas[0].1, areas[1].1);
        assert_eq!(areas[0].2, areas[1].2);
    }
}

/// What stands at the place of a refusal and why the rule fails there, without numbers of nodes.
fn shown(image: &[u8]) -> String {
    let explained = explain::explain(image, library::check(image));
    let (_, shown) = explained.split_once("):\n").expect("a node at the place");
    shown.to_string()
}

/// Depth and all rules behind it are about what a text can say. The order of 10 to 12 is that of
/// reading, so that other numbers of nodes leave the refusal at its command.
#[test]
fn designs_refused_from_7_on_come_back_apart_from_node_numbers() {
    let mut random = Random::new(22);
    let mut compared = 0;
    for round in 0..60 {
        let size = Size::random(&mut random);
        let sound = any_design(&mut random, size);
        for number in (7..=12).chain([16]) {
            let mut table = sound.clone();
            faults::spoil(&mut table, number, &mut random);
            let image = table.image();
            let before = library::check(&image).number;
            // 19 is about bytes too that no text has, and is judged after 7, 8 and 16.
            if before >= 7 && !printed(&image).contains('[') {
                compared += 1;
                let again = assert_same_design(&format!("round {round}"), &image);
                let after = library::check(&again).number;
                assert!(after == before || too_deep(&image) && after != 7, "{after}");
                if let 10..=12 = before {
                    assert_eq!(shown(&again), shown(&image));
                }
            }
        }
    }
    assert!(compared > 200, "{compared}");
}

/// Of what 19 refuses, a text says some: declared bounds, parameters in scope and arguments.
#[test]
fn parameters_refused_come_back_where_a_text_has_them() {
    let mut random = Random::new(24);
    let (mut said, mut refused) = (0, 0);
    for round in 0..200 {
        let size = Size::random(&mut random);
        let mut table = parameterised(&mut random, size);
        faults::spoil(&mut table, 19, &mut random);
        let image = table.image();
        if library::check(&image).number != 19 {
            continue;
        }
        refused += 1;
        if assemble(&printed(&image)).is_ok() {
            let again = assert_same_design(&format!("round {round}"), &image);
            assert_eq!(library::check(&again).number, 19);
            said += 1;
        }
    }
    assert!(refused > 100 && said > 5, "{refused} {said}");
}

/// Every table that can be cut is printed, and every answer explained, with a reason where the rule
/// is about more than one record. If the text assembles, it prints as the same text but for the
/// comments.
#[test]
fn faults_are_printed_and_explained() {
    let mut images: Vec<Vec<u8>> = examples::all().into_iter().map(|one| one.image).collect();
    let mut random = Random::new(23);
    for _ in 0..40 {
        let size = Size::random(&mut random);
        let sound = any_design(&mut random, size);
        images.push(faults::spoil_directory(&sound, &mut random));
        images.push(faults::damaged(sound.image(), &mut random));
        for number in (2..=12).chain([16, 19]) {
            let mut table = sound.clone();
            faults::spoil(&mut table, number, &mut random);
            images.push(table.image());
        }
    }
    for image in images {
        let answer = library::check(&image);
        let explained = explain::explain(&image, answer);
        assert_eq!(explained == "accepted\n", answer.number == 0);
        if let 2 | 3 | 8 | 10..=12 | 16 | 19 = answer.number {
            let reasons = explained.split_once("\nBecause:\n").map(|(_, last)| last);
            assert!(
                reasons.is_some_and(|reasons| !reasons.is_empty()),
                "{explained}"
            );
        }
        let Ok(table) = read(&image) else {
            assert_eq!(answer.number, 1);
            continue;
        };
        let text = print(&table);
        if let Ok(again) = assemble(&text) {
            let (declared, _) = text.split_once("\n#").unwrap_or((&text, ""));
            assert_eq!(printed(&again).trim_end(), declared.trim_end());
        }
    }
}

/// As deep as the counts allow: sums to the right, each in parentheses.
#[test]
fn deep_expressions_come_back() {
    on_large_stack(|| {
        let mut deep = table::Table::new(&[1]);
        deep.inner(0, 0, 32);
        let fall = deep.fall();
        deep.state(0, 0, fall);
        let mut value = deep.constant(0);
        for _ in 0..1_023 {
            let one = deep.constant(1);
            value = deep.add(one, value);
        }
        let assign = deep.assign(0, value);
        let go = deep.goto(1);
        let body = deep.sequence(assign, go);
        deep.state(0, 0, body);
        assert_same_design("deep", &deep.image());
    });
}
