//! Gate tables, request E13: the tables of documents 000 and 001, and every boundary of 25 and 26.

use crate::answer::Answer;
use crate::compare::gate_reasons::note_table;
use crate::compare::tally::Tally;
use crate::designs::gates::{counter, multiplexer, one_gate, ring};
use crate::generate::faults::{spoil_gate_directory, spoil_gate_record};
use crate::generate::gates::{gate_counts, gate_table};
use crate::generate::random::Random;
use crate::reference::gates::{check, cycle, nand, reset, Signal, TRUSTED, UNTRUSTED};
use crate::table::gates::{FlipFlop, GateTable};

const ACCEPTED: Answer = Answer::accepted(0);

fn every_signal() -> impl Iterator<Item = Signal> {
    (0..4).map(|bits| Signal::new(bits & 1, bits >> 1))
}

/// Both values that a signal may have as far as trusted signals tell.
fn choices(signal: Signal) -> Vec<u8> {
    match signal.mark {
        TRUSTED => vec![signal.value],
        _ => vec![0, 1],
    }
}

/// Documents 000, 3.2.2, and 001, 3.1: the output is trusted exactly if no choice of the untrusted inputs'
/// values changes it. All 16 rows.
#[test]
fn the_shadow_nand() {
    for a in every_signal() {
        for b in every_signal() {
            let mut outputs: Vec<bool> = (choices(a).iter())
                .flat_map(|&a| choices(b).into_iter().map(move |b| a & b == 0))
                .collect();
            outputs.dedup();
            let out = nand(a, b);
            assert_eq!(out.mark == TRUSTED, outputs.len() == 1, "{a:?} {b:?}");
            assert_eq!(out.value, 1 - (a.value & b.value), "{a:?} {b:?}");
        }
    }
}

/// Figure 1 of document 001, the rows with a trusted and b untrusted. There the gate is an and; the mark of
/// a NAND is the same.
#[test]
fn the_shadow_table_of_figure_1() {
    for (a, b, mark) in [(0, 0, 0), (0, 1, 0), (1, 0, 1), (1, 1, 1)] {
        let table = one_gate([TRUSTED, UNTRUSTED]).bytes();
        let mut area = [0, 0];
        assert_eq!(cycle(&table, &[a, b], &mut area), ACCEPTED);
        assert_eq!(area, [1 - (a & b), mark]);
    }
}

/// Document 001, 3.2: the marks of a multiplexer of gates are the formula that it gives.
#[test]
fn the_multiplexer_is_untrusted_in_46_rows() {
    let mut untrusted = 0;
    for row in 0..64u8 {
        let bit = |number: u8| row >> number & 1;
        let ([s, a, b], marks) = ([bit(0), bit(1), bit(2)], [bit(3), bit(4), bit(5)]);
        let [s_t, a_t, b_t] = marks;
        let table = multiplexer(marks).bytes();
        let mut area = [0, 0];
        assert_eq!(cycle(&table, &[s, a, b], &mut area), ACCEPTED);
        assert_eq!(area[0], if s == 1 { a } else { b });
        let formula = a_t & s | b_t & (1 - s) | s_t & a_t | s_t & a | s_t & b_t | s_t & b;
        assert_eq!(area[1], formula, "{row}");
        untrusted += area[1];
    }
    assert_eq!(untrusted, 46);
}

#[test]
fn the_counter_of_figure_3() {
    let table = counter().bytes();
    assert_eq!(table.len(), 33);
    let mut area = [7, 7];
    assert_eq!(reset(&table, &mut area), ACCEPTED);
    assert_eq!(area, [1, 1]);
    let expected = [[0, 1], [1, 1], [0, 0], [1, 0], [0, 0]];
    for (input, expected) in [0, 0, 1, 0, 0].into_iter().zip(expected) {
        assert_eq!(cycle(&table, &[input], &mut area), ACCEPTED);
        assert_eq!(area, expected);
    }
}

#[test]
fn flipflops_change_together() {
    let table = ring(3).bytes();
    let mut area = [9; 6];
    assert_eq!(reset(&table, &mut area), ACCEPTED);
    assert_eq!(area, [1, 0, 0, 1, 0, 0]);
    assert_eq!(cycle(&table, &[], &mut area), ACCEPTED);
    assert_eq!(area, [0, 0, 1, 0, 0, 1]);
}

/// What each count and the directory may be.
#[test]
fn boundaries_of_25() {
    let table = |inputs, flipflops, gates| {
        GateTable {
            inputs: vec![0; inputs],
            flipflops: vec![FlipFlop::default(); flipflops],
            gates: vec![[0, 0]; gates],
        }
        .bytes()
    };
    let refused = Answer::refused(25, 0);
    assert_eq!(check(&table(0, 0, 0)), ACCEPTED);
    assert_eq!(check(&table(256, 256, 4_096)), ACCEPTED);
    assert_eq!(table(256, 256, 4_096).len(), 17_676);
    for (inputs, flipflops, gates) in [(257, 0, 0), (0, 257, 0), (1, 0, 4_097)] {
        assert_eq!(check(&table(inputs, flipflops, gates)), refused);
    }
    let whole = table(1, 1, 1);
    for length in 0..whole.len() {
        assert_eq!(check(&whole[..length]), refused, "{length}");
    }
    assert_eq!(check(&[&whole[..], &[0]].concat()), refused);
    for byte in 0..12 {
        let mut changed = whole.clone();
        changed[byte] ^= 1;
        assert_eq!(check(&changed), refused, "byte {byte}");
    }
}

/// Each field of each kind of record on either side of its range.
#[test]
fn boundaries_of_26() {
    let good = || GateTable {
        inputs: vec![0, 1],
        flipflops: vec![
            FlipFlop {
                next: 5,
                value: 1,
                mark: 1
            };
            2
        ],
        gates: vec![[3, 0], [4, 4]],
    };
    assert_eq!(check(&good().bytes()), ACCEPTED);
    let wrong = |change: fn(&mut GateTable)| {
        let mut table = good();
        change(&mut table);
        check(&table.bytes())
    };
    for (answer, place) in [
        (wrong(|table| table.inputs[1] = 2), 1),
        (wrong(|table| table.flipflops[0].next = 6), 2),
        (wrong(|table| table.flipflops[1].value = 2), 3),
        (wrong(|table| table.flipflops[1].mark = 2), 3),
        (wrong(|table| table.gates[0][0] = 4), 4),
        (wrong(|table| table.gates[0][1] = 4), 4),
        (wrong(|table| table.gates[1][0] = 5), 5),
        (wrong(|table| table.gates[1][1] = 256 + 4), 5),
        // The lowest wire counts.
        (
            wrong(|table| (table.gates[1][0], table.inputs[0]) = (5, 255)),
            0,
        ),
    ] {
        assert_eq!(answer, Answer::refused(26, place));
    }
}

/// 25, 26 for the table, 14, 26 for lent bytes; nothing is changed by a refusal.
#[test]
fn the_order_of_refusals() {
    let good = counter();
    let mut bad = counter();
    bad.gates[0] = [2, 0];
    let (good, bad) = (good.bytes(), bad.bytes());
    for (table, inputs, area, answer) in [
        (&good[1..], &[2][..], &[2][..], Answer::refused(25, 0)),
        (&bad[..], &[2], &[2], Answer::refused(26, 2)),
        (&good[..], &[2, 0], &[2, 2], Answer::refused(14, 0)),
        (&good[..], &[2], &[2, 2, 0], Answer::refused(14, 0)),
        (&good[..], &[2], &[2], Answer::refused(14, 0)),
        (&good[..], &[2], &[2, 2], Answer::refused(26, 0)),
        (&good[..], &[1], &[1, 2], Answer::refused(26, 1)),
        (&good[..], &[1], &[2, 1], Answer::refused(26, 1)),
    ] {
        let mut lent = area.to_vec();
        assert_eq!(cycle(table, inputs, &mut lent), answer);
        assert_eq!(lent, area);
        let reset_answer = match (answer.number, area.len()) {
            (25, _) => answer,
            (26, _) if table == &bad[..] => answer,
            (_, 2) => ACCEPTED,
            _ => Answer::refused(14, 0),
        };
        assert_eq!(reset(table, &mut lent), reset_answer);
    }
}

/// The generator makes accepted tables, and its faults meet every reason.
#[test]
fn gate_faults_are_met() {
    let mut random = Random::new(19);
    let mut tally = Tally::default();
    let mut judge = |table: &[u8]| {
        let answer = check(table);
        tally.add(answer, table.len());
        note_table(&mut tally, table, answer);
        answer
    };
    for _ in 0..600 {
        let counts = gate_counts(&mut random);
        let table = gate_table(&mut random, counts);
        assert_eq!(judge(&table.bytes()), ACCEPTED);
        judge(&spoil_gate_directory(&table, &mut random));
        let mut spoiled = table.clone();
        spoil_gate_record(&mut spoiled, &mut random);
        judge(&spoiled.bytes());
    }
    judge(&gate_table(&mut random, [256, 256, 4_096]).bytes());
    judge(&GateTable::default().bytes());
    assert_eq!(tally.missing_of(&[25, 26]), [""; 0]);
}
