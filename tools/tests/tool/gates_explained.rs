//! What explain says of gate tables.

use caisson_tests::designs::gates::counter;
use caisson_tests::generate::faults::{damaged, spoil_gate_directory, spoil_gate_record};
use caisson_tests::generate::gates::{gate_counts, gate_table};
use caisson_tests::generate::random::Random;
use caisson_tests::reference::gates::check;
use caisson_tests::table::gates::GateTable;
use caisson_tools::gates::{self, explain};
use caisson_tools::library;

fn explained(image: &[u8]) -> String {
    explain::explain(image, library::gates_check(image))
}

/// The wire, and each field of its record that is out of range.
#[test]
fn a_wire_is_shown_with_the_reasons() {
    let shown = |change: fn(&mut GateTable)| {
        let mut table = counter();
        change(&mut table);
        explained(&table.bytes())
    };
    for (text, end) in [
        (
            shown(|table| table.inputs[0] = 2),
            "Wire 0, an input (bytes 2):\n    input i0 [mark 2]\n\nBecause:\n    \
             mark 2 is neither 0 (trusted) nor 1 (untrusted)\n",
        ),
        (
            shown(|table| {
                table.flipflops[0].next = 6;
                table.flipflops[0].value = 2;
            }),
            "Wire 1, a flip-flop (bytes 6 0 2 1):\n    flipflop f0 = [wire 6] start [value 2] untrusted\n\n\
             Because:\n    start value 2 is neither 0 nor 1\n    \
             next wire 6 is none: the table has wires 0 to 5\n",
        ),
        (
            shown(|table| table.gates[1] = [3, 4]),
            "Wire 3, a gate (bytes 3 0 4 0):\n    gate g1 = nand g1 g2\n\nBecause:\n    \
             its first wire 3, g1, is not lower than its own, 3\n    \
             its second wire 4, g2, is not lower than its own, 3\n",
        ),
    ] {
        assert!(text.starts_with("refused by 26 at place "), "{text}");
        assert!(text.ends_with(end), "{text}");
    }
}

#[test]
fn a_directory_is_shown_with_the_reason() {
    let whole = counter().bytes();
    let mut many = counter();
    many.inputs.resize(257, 0);
    many.flipflops.resize(300, many.flipflops[0]);
    for (image, end) in [
        (
            whole[..7].to_vec(),
            "The directory of a gate table of 7 bytes (a directory has 12 bytes, the image 7):\n    12,1\n",
        ),
        (
            many.bytes(),
            "The directory of a gate table of 1485 bytes (257 inputs, and 256 are the most; \
             300 flip-flops, and 256 are the most):\n    12,257 269,1200 1469,16\n",
        ),
    ] {
        let text = explained(&image);
        assert!(text.starts_with("refused by 25 at place 0\n\nThe directory of a gate table, a count"));
        assert!(text.ends_with(end), "{text}");
    }
}

/// The line of the text that declares the wire.
#[test]
fn a_text_is_shown_with_its_line() {
    let source = "gates\n  input a trusted\n  gate up = nand a on\n  gate on = nand a a\n";
    let (image, wires) = gates::assemble_placed(source).unwrap();
    let text = explain::explain_text(source, &image, &wires, library::gates_check(&image));
    let end = "its second wire 2, on, is not lower than its own, 1\n\n\
               In the text, line 3, column 8:\n      gate up = nand a on\n           ^\n";
    assert!(text.ends_with(end), "{text}");
}

/// Whatever the bytes, the answer is the library's, which is the reference's, and 26 has its reasons.
#[test]
fn faults_are_explained() {
    let mut random = Random::new(47);
    for _ in 0..300 {
        let counts = gate_counts(&mut random);
        let sound = gate_table(&mut random, counts);
        let mut spoiled = sound.clone();
        spoil_gate_record(&mut spoiled, &mut random);
        for image in [
            spoil_gate_directory(&sound, &mut random),
            spoiled.bytes(),
            damaged(sound.bytes(), &mut random),
        ] {
            let (text, answer) = (explained(&image), check(&image));
            let begin = match answer.number {
                0 => "accepted\n".to_string(),
                number => format!("refused by {number} at place {}\n", answer.place),
            };
            assert!(text.starts_with(&begin), "{text}");
            let reasons = text.split_once("Because:\n").map(|(_, last)| last);
            assert_eq!(
                answer.number == 26,
                reasons.is_some_and(|last| !last.is_empty())
            );
        }
    }
}
