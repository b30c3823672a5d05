//! Bindings, request E8: refusal 14 along the current targets and off them.

use super::{refused_run, Areas};
use crate::answer::Answer;
use crate::compare::areas;
use crate::compare::bindings::{note_bindings, Before};
use crate::compare::calls::Call;
use crate::compare::chance::{any_call, disturb};
use crate::compare::engine::REFERENCE;
use crate::compare::tally::Tally;
use crate::designs::{line, one_group, smallest, with_width};
use crate::generate::random::Random;
use crate::generate::{any_design, parameterised, Size};
use crate::reference;
use crate::reference::image::{Image, PORT};
use crate::table::Table;

fn with_bindings(table: &Table, targets: &[u8], bindings: &[u8]) -> Areas {
    let mut areas = Areas::reset(table);
    areas.targets = [targets, bindings].concat();
    areas
}

/// `one_group` with state 2 and its child as targets, and with these bindings.
fn in_group(bindings: [u8; 10]) -> Areas {
    with_bindings(&one_group(), &[2, 1, 3, 3, 4], &bindings)
}

#[test]
fn sound_bindings() {
    for bindings in [
        [0, 0, 0, 0, 0, 0, 0, 0, 0, 0],
        [0, 0, 0, 0, 1, 0, 0, 0, 0, 0],
        [0, 0, 0, 0, 4, 0, 0, 0, 0, 0],
        // What no parameter uses may be any register, ports too.
        [5, 2, 3, 4, 5, 5, 2, 2, 3, 5],
    ] {
        let mut areas = in_group(bindings);
        assert_eq!(areas.run(0), Answer::accepted(0));
        assert_eq!(areas.run(1), Answer::accepted(1));
    }
    // Off the current targets a port may stand, and what is out of bounds.
    let mut narrow = one_group();
    narrow.takes(2, &[(0, 0)]);
    for node in &mut narrow.commands {
        if (node.kind, node.which) == (4, 2) {
            node.a = 5;
        }
    }
    for (table, register) in [(one_group(), 2), (narrow, 4)] {
        let bindings = [0, 0, 0, 0, register, 0, 0, 0, 0, 0];
        let mut areas = with_bindings(&table, &[1, 1, 3, 3, 4], &bindings);
        assert_eq!(areas.run(0), Answer::accepted(0));
        areas.set_targets(&[2]);
        assert_eq!(refused_run(&areas, 0), (14, 2));
    }
}

#[test]
fn unsound_bindings() {
    for (bindings, place) in [
        ([0, 0, 0, 0, 2, 0, 0, 0, 0, 0], 2), // ports
        ([0, 0, 0, 0, 3, 0, 0, 0, 0, 0], 2),
        ([0, 0, 0, 0, 6, 0, 0, 0, 0, 0], 2),
        ([0, 0, 0, 0, 255, 0, 0, 0, 0, 0], 2),
        ([6, 0, 0, 0, 4, 0, 0, 0, 0, 0], 0), // of no parameter
        ([0, 6, 0, 0, 4, 0, 0, 0, 0, 0], 0),
        ([0, 0, 64, 0, 4, 0, 0, 0, 0, 0], 1),
        ([0, 0, 0, 0, 4, 6, 0, 0, 0, 0], 2),
        ([0, 0, 0, 0, 4, 0, 0, 0, 0, 6], 4),
        // The lowest state counts.
        ([0, 0, 0, 0, 2, 0, 0, 0, 0, 6], 2),
        ([0, 0, 6, 0, 2, 0, 0, 0, 0, 6], 1),
    ] {
        let areas = in_group(bindings);
        for cycles in [0, 1, 1_000_001] {
            assert_eq!(refused_run(&areas, cycles), (14, place));
        }
        // After the targets and after the contents.
        let mut areas = in_group(bindings);
        areas.targets[4] = 3;
        assert_eq!(refused_run(&areas, 1), (14, 4));
        areas.image = with_width(one_group(), 5, 1).image();
        areas.registers[20] = 2;
        assert_eq!(refused_run(&areas, 1), (14, 5));
        areas.targets.pop();
        assert_eq!(refused_run(&areas, 1), (14, 0));
    }
}

/// Bounds below and above, and beside: labels 1 and 2 cannot be compared.
#[test]
fn bounds_of_bindings() {
    for (bounds, sound) in [
        ((0, 3), [0, 1, 2, 3].as_slice()),
        ((0, 0), &[0]),
        ((0, 1), &[0, 1]),
        ((1, 3), &[1, 3]),
        ((2, 2), &[2]),
        ((3, 3), &[3]),
    ] {
        let mut table = line();
        // Nothing is passed to 4 any more but its own parameter.
        for node in &mut table.commands {
            if node.kind == 4 && node.which == 4 && node.a != 65 {
                (node.which, node.a) = (3, 0);
            }
        }
        table.takes(4, &[bounds]);
        for register in 0..4 {
            let bindings = [0, 0, 0, 0, 3, 0, 0, 0, register, 0, 0, 0];
            let areas = with_bindings(&table, &[2, 1, 4, 3, 5, 5], &bindings);
            let walked = reference::walk(&areas.image, &areas.registers, &areas.targets);
            match sound.contains(&register) {
                true => assert_eq!(walked.unwrap(), [0, 2, 4]),
                false => assert_eq!(refused_run(&areas, 1), (14, 4)),
            }
        }
    }
}

/// Where there is no register, 0 is none either.
#[test]
fn a_parameter_without_registers() {
    let mut table = smallest();
    let body = table.goto_with(2, &[64]);
    table.state(0, 16, body);
    table.takes(2, &[(0, 0)]);
    let mut areas = Areas::reset(&table);
    assert_eq!(areas.run(3), Answer::accepted(3));
    areas.set_targets(&[2]);
    assert_eq!(refused_run(&areas, 0), (14, 2));
    areas.set_targets(&[1, 1, 2, 0, 0, 0, 0, 1]);
    assert_eq!(refused_run(&areas, 0), (14, 2));
}

/// Runs leave sound bindings: a run after a run is never refused.
#[test]
fn runs_from_reset_stay_sound() {
    let mut random = Random::new(30);
    let mut bound = 0;
    for _ in 0..120 {
        let size = Size::random(&mut random);
        let table = parameterised(&mut random, size);
        let mut areas = Areas::reset(&table);
        for _ in 0..10 {
            for port in table.of_kind(PORT) {
                let value = random.fitting(table.registers[usize::from(port)].width);
                assert_eq!(areas.write_port(port.into(), value).number, 0);
            }
            assert_eq!(areas.run(3), Answer::accepted(3));
        }
        let bindings = &areas.targets[table.states.len()..];
        bound += usize::from(bindings.iter().any(|&byte| byte != 0));
    }
    assert!(bound >= 25, "{bound} of 120 bound a register");
}

/// Bindings of every sort are met by lists of calls.
#[test]
fn bindings_are_met() {
    let mut random = Random::new(31);
    let mut tally = Tally::default();
    for _ in 0..500 {
        let size = Size::random(&mut random);
        let table = any_design(&mut random, size);
        let image = table.image();
        let mut areas = areas::Areas::new(&table, 0, &mut random);
        REFERENCE.make(Call::Reset, &image, areas.whole());
        for _ in 0..30 {
            disturb(&mut areas, &table, &mut random);
            let call = any_call(&table, &mut random);
            if matches!(call, Call::Run { cycles } if cycles > 100) {
                continue;
            }
            let mut before = areas.clone();
            let answer = REFERENCE.make(call, &image, areas.whole());
            let mut values = table.registers.iter().zip(before.values());
            let fitting = values.all(|(register, value)| value <= register.most());
            if let (Call::Run { cycles }, true) = (call, fitting) {
                let lent = Before {
                    image: Image::open(&image).unwrap(),
                    registers: before.registers.whole(),
                    targets: before.targets.whole(),
                };
                note_bindings(&mut tally, &lent, cycles, answer);
            }
        }
    }
    assert_eq!(tally.missing_reasons(), [""; 0]);
}
