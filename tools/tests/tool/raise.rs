//! What is said of a raising: which labels rose, and why there is none.

use crate::common::{bytes, explained_text, text};
use caisson_tests::answer::Answer;
use caisson_tests::generate::random::Random;
use caisson_tests::generate::{chained, design, lowered, Size};
use caisson_tests::reference;
use caisson_tools::raise::{raise_table, raise_text};

/// Two labels, a port of the higher, three registers at the lower, and these states.
fn with_states(states: &str) -> String {
    format!(
        "label low -> high\nlabel high\nport secret : high = 0\nregister a : low = 0\n\
         register b : low = 0\nregister c : low = 0\nstate root : low {{ fall }}\n{states}\n"
    )
}

fn said(source: &str) -> String {
    raise_text(source).unwrap().0.words
}

#[test]
fn designs_are_raised_as_they_say() {
    let raised = raise_table(&bytes("designs/guessed.table"));
    assert_eq!(raised.answer.number, 0);
    assert!(raised.image == bytes("designs/guessed_raised.table"));
    let again = raise_table(&raised.image);
    assert!(again.image == raised.image);
    assert_eq!(again.words, "accepted as it is: no label has to rise\n");
    for design in ["no_raising", "secret_goto", "secret_fall", "high_timer"] {
        let refused = raise_table(&bytes(&format!("designs/{design}.table")));
        assert_eq!((refused.answer.number, refused.answer.place), (18, 0));
        assert!(refused.image.is_empty());
    }
}

/// In the text's names, and in a letter and the number where there are none.
#[test]
fn what_rose_is_named() {
    let named = "accepted with 5 labels raised:\n\
                 \x20   north_last: from site to north\n\
                 \x20   north_before: from site to north\n\
                 \x20   south_last: from site to south\n\
                 \x20   shortage: from site to both\n\
                 \x20   pumped: from site to both\n";
    assert_eq!(said(&text("designs/guessed.caisson")), named);
    let words = raise_table(&bytes("designs/leak.table")).words;
    assert_eq!(
        words,
        "accepted with 1 label raised:\n    r0: from l0 to l1\n"
    );
}

#[test]
fn what_cannot_be_met_is_shown_in_a_text() {
    let said = said(&text("designs/no_raising.caisson"));
    assert!(said.starts_with("refused by 18 at place 0\n\nNo raising of the image is accepted. "));
    let shown = "\n\n\
        In state even, goto odd cannot be met:\n\
        \x20   flag : high, raised from low and read in a condition, does not flow to odd : low\n\
        \n\
        How the label came to flag:\n\
        \x20   port secret : high, as the design has it\n\
        \x20   copy is assigned what reads secret: line 13, column 46, in state even\n\
        \x20   flag is assigned what reads copy: line 13, column 28, in state even\n\
        \n\
        In the text, line 13, column 75:\n";
    assert!(said.contains(shown), "{said}");
}

#[test]
fn what_cannot_be_met_is_shown_in_a_table() {
    let said = raise_table(&bytes("designs/no_raising.table")).words;
    let shown = "\n\n\
        In state s1, goto s2 cannot be met:\n\
        \x20   r2 : l1, raised from l0 and read in a condition, does not flow to s2 : l0\n\
        \n\
        How the label came to r2:\n\
        \x20   port r0 : l1, as the design has it\n\
        \x20   r1 is assigned what reads r0: command 2, `r1 := r0`, in state s1\n\
        \x20   r2 is assigned what reads r1: command 1, `r2 := r1 & 1`, in state s1\n\
        \n\
        Command 3 (bytes 4 2 0 0 0 0 0 0):\n    goto s2\n";
    assert!(said.contains(shown), "{said}");
}

/// The ways in which a label comes to a condition, each with its lines.
#[test]
fn every_way_is_told() {
    for (states, lines) in [
        // At once: there is nothing to raise.
        (
            "state s in root : low { if secret then goto s else goto s }",
            &[
                "In state s, goto s cannot be met:",
                "secret : high, read in a condition, does not flow to s : low",
                "How the label came to secret:\n    port secret : high, as the design has it\n\nIn the text",
            ][..],
        ),
        // By a condition, and over another state.
        (
            "state s in root : low { if secret then a := 1 else skip; goto t }\n\
             state t in root : low { if a then fall else goto s }\nstate u in t : low { goto u }",
            &[
                "In state t, fall cannot be met:",
                "a : high, raised from low and read in a condition, does not flow to t : low",
                "    port secret : high, as the design has it\n\
                 \x20   a is assigned in an if that reads secret: line 8, column 40, in state s\n",
            ],
        ),
        // By the label of a state.
        (
            "state s in root : low { if b == a then goto s else goto s }\n\
             state t in root : high { a := 1; goto t }",
            &[
                "How the label came to a:\n    state t : high, as the design has it\n\
                 \x20   a is assigned there: line 9, column 26, in state t\n",
            ],
        ),
        // A state itself, without any register.
        (
            "state s in root : high { goto t }\nstate t in root : low { goto t }",
            &["In state s, goto t cannot be met:\n    s : high, its state, does not flow to t : low\n\nIn the"],
        ),
        // Two conditions, and a register that is read twice.
        (
            "state s in root : low { a := secret; b := a; if a & a then if b then goto s else goto s else goto s }",
            &[
                "    a : high, raised from low and read in a condition, does not flow to s : low\n\
                 \x20   b : high, raised from low and read in a condition, does not flow to s : low\n\n",
                "How the label came to a:\n",
                "How the label came to b:\n",
            ],
        ),
        // The shortest chain, though a longer one is read first.
        (
            "state s in root : low { c := b; b := a; a := secret; c := secret; if c then goto s else goto s }",
            &["How the label came to c:\n    port secret : high, as the design has it\n\
               \x20   c is assigned what reads secret: line 8, column 54, in state s\n\n"],
        ),
    ] {
        let said = said(&with_states(states));
        assert!(said.starts_with("refused by 18 at place 0\n"), "{states}");
        for line in lines {
            assert!(said.contains(line), "{line}\n{said}");
        }
    }
}

/// Of what the checks before refuse the same is said as by `explain`.
#[test]
fn other_refusals_are_explained() {
    for (design, number) in [("low_child", 9), ("port_assigned", 16), ("no_lattice", 2)] {
        let image = bytes(&format!("designs/{design}.table"));
        let raised = raise_table(&image);
        assert_eq!(raised.answer.number, number);
        let explained = caisson_tools::explain::explain(&image, raised.answer);
        assert_eq!(raised.words, explained);
        let source = text(&format!("designs/{design}.caisson"));
        let (raised, new_text) = raise_text(&source).unwrap();
        assert_eq!(raised.words, explained_text(&source));
        assert!(new_text.is_empty() && raised.image.is_empty());
    }
}

/// Of random designs: as many lines as labels that are others, and of each without a raising a flow.
#[test]
fn random_designs() {
    let mut random = Random::new(61);
    let (mut raised_ones, mut hopeless) = (0, 0);
    for round in 0..400 {
        let table = match round % 4 {
            0 => {
                let size = Size::random(&mut random);
                lowered(&design(&mut random, size), &mut random)
            }
            _ => chained(&mut random),
        };
        let image = table.image();
        let mut expected = vec![0; image.len()];
        let answer = reference::raise(&image, &mut expected);
        let raised = raise_table(&image);
        assert_eq!(raised.answer.number, answer.number);
        if answer == Answer::accepted(0) {
            assert!(raised.image == expected);
            let changed = image.iter().zip(&expected).filter(|(old, new)| old != new);
            let lines = raised.words.matches(": from l").count();
            assert_eq!(lines, changed.count(), "{}", raised.words);
            raised_ones += usize::from(lines > 0);
        } else {
            let words = &raised.words;
            assert!(words.contains(" cannot be met:\n    "), "{words}");
            let registers = words.matches("read in a condition, does not flow").count();
            let chains = words.matches("How the label came to ").count();
            let begins = words.matches(", as the design has it\n").count();
            assert_eq!((registers, registers), (chains, begins), "{words}");
            let by_state = words.contains(", its state, does not flow");
            assert!(registers > 0 || by_state, "{words}");
            hopeless += 1;
        }
    }
    assert!(
        raised_ones > 50 && hopeless > 50,
        "{raised_ones} {hopeless}"
    );
}
