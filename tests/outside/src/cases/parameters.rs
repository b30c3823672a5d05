//! States with parameters, request E8.

use super::{listed, Areas};
use crate::answer::Answer;
use crate::compare::engine::REFERENCE;
use crate::compare::groups::Groups;
use crate::compare::independence::{pairs_of_seed, Findings};
use crate::compare::parameter_rules::first_fault;
use crate::designs::{exchange, hidden_choice, line, one_group, two_groups};
use crate::generate::random::Random;
use crate::generate::{any_design, faults, Size};
use crate::reference;
use crate::reference::image::{Image, PORT};
use crate::reference::machine::{Machine, Ran};
use crate::reference::refusal;
use crate::table::Table;

fn differences(groups: &Groups) -> Vec<(u8, Vec<u8>)> {
    match groups.compare(&REFERENCE, 1) {
        Ok(known) => known,
        Err(difference) => panic!("{}", difference.text),
    }
}

/// Figures 2(b) and 2(c).
#[test]
fn one_body_for_two_groups() {
    let groups = Groups {
        two: two_groups(),
        shared: one_group(),
    };
    let expected: [(u8, &[u8]); 8] = [
        (0, &[]),
        (1, &[]),
        (2, &[4]),
        (2, &[5]),
        (3, &[4]),
        (4, &[4]),
        (3, &[5]),
        (4, &[5]),
    ];
    let expected = expected.map(|(state, bound)| (state, bound.to_vec()));
    assert_eq!(differences(&groups), expected);
}

#[test]
fn one_body_for_two_groups_as_stored() {
    let groups = Groups::stored().unwrap();
    assert!(groups.shared.has_parameters());
    assert_eq!(differences(&groups).len(), 8);
}

/// The walk of the next cycle, with labels and bindings.
fn ran(areas: &Areas) -> Vec<(u8, u8, Vec<u8>)> {
    let image = Image::open(&areas.image).unwrap();
    let mut walk: Vec<Ran> = Vec::new();
    let machine = Machine::new(&image);
    machine.cycle(&mut areas.values(), &mut areas.targets.clone(), &mut walk);
    let own = |ran: Ran| ran.bound.into_iter().flatten().collect();
    walk.into_iter()
        .map(|ran| (ran.state, ran.label, own(ran)))
        .collect()
}

#[test]
fn the_lister_speaks_as_before() {
    let expected = "cycle;walk;registers\n\
                    1;0 1;3 1 0 0 0 0\n\
                    2;0 2 3;2 1 0 0 0 0\n\
                    3;0 2 4;1 1 0 0 0 0\n\
                    4;0 2;0 1 0 0 0 0\n\
                    5;0 1;3 0 0 0 0 0\n\
                    6;0 2 3;2 0 0 0 0 0\n";
    assert_eq!(listed(&one_group(), 6), expected);
}

#[test]
fn the_area_is_three_bytes_a_state() {
    let table = one_group();
    assert_eq!(
        reference::targets_length(&table.image()),
        Answer::accepted(15)
    );
    let areas = Areas::reset(&table);
    assert_eq!(areas.targets, [1, 1, 3, 3, 4, 0, 0, 0, 0, 0, 0, 0, 0, 0, 0]);
}

/// A state is seen by the label that it had as it ran, not by today's.
#[test]
fn a_state_has_the_label_of_its_binding() {
    let mut areas = Areas::reset(&one_group());
    assert_eq!(areas.run(1).count, 1);
    assert_eq!(areas.targets[5..], [0, 0, 0, 0, 4, 0, 0, 0, 0, 0]);
    let group = (2, 0, vec![4]);
    assert_eq!(ran(&areas), [(0, 0, vec![]), group, (3, 1, vec![])]);
    assert_eq!(areas.run(4).count, 4);
    assert_eq!(areas.targets[5..], [0, 0, 0, 0, 5, 0, 0, 0, 0, 0]);
    let group = (2, 0, vec![5]);
    assert_eq!(ran(&areas), [(0, 0, vec![]), group, (3, 0, vec![])]);
}

/// All arguments are read before any is set.
#[test]
fn two_parameters_are_exchanged() {
    let mut areas = Areas::reset(&exchange());
    let bound = |areas: &Areas| [areas.targets[7], areas.targets[8]];
    assert_eq!(areas.run(1).count, 1);
    assert_eq!(bound(&areas), [0, 1]);
    assert_eq!(areas.write_port(2, 1).number, 0);
    assert_eq!(areas.run(1).count, 1);
    assert_eq!((bound(&areas), areas.values()), ([1, 0], vec![1, 14, 1]));
    assert_eq!(areas.run(1).count, 1);
    assert_eq!((bound(&areas), areas.values()), ([0, 1], vec![1, 15, 1]));
    assert_eq!(areas.run(2).count, 2);
    // Cut by the width of the register bound.
    assert_eq!((bound(&areas), areas.values()), ([0, 1], vec![2, 0, 1]));
}

#[test]
fn parameters_along_a_line() {
    let mut areas = Areas::reset(&line());
    // 2 is bound to r2, whose value is 0, and passes it on to 4.
    assert_eq!(areas.run(2).count, 2);
    assert_eq!(areas.targets[6..], [0, 0, 0, 0, 2, 0, 0, 0, 2, 0, 0, 0]);
    let expected = [(0, 0, vec![]), (2, 2, vec![2]), (4, 2, vec![2])];
    assert_eq!(ran(&areas), expected);
    // From r1, whose value is 1, to r3.
    let mut areas = Areas::reset(&line());
    assert_eq!(areas.write_port(4, 1).number, 0);
    assert_eq!(areas.run(2).count, 2);
    let expected = [(0, 0, vec![]), (2, 1, vec![1]), (4, 3, vec![3])];
    assert_eq!(ran(&areas), expected);
}

/// A goto sets the own bindings of the state it names: with one parameter the second byte stays, and those
/// of descendants and of others stay.
#[test]
fn a_goto_sets_its_own_bindings_only() {
    let mut areas = Areas::reset(&line());
    areas.targets[6..].copy_from_slice(&[1, 2, 3, 4, 0, 2, 3, 3, 2, 1, 4, 3]);
    assert_eq!(areas.run(1).count, 1);
    assert_eq!(
        areas.targets,
        [2, 1, 3, 3, 5, 5, 1, 2, 3, 4, 2, 2, 3, 3, 2, 1, 4, 3]
    );
}

/// 20 stands between the image checks and 14.
#[test]
fn raising_refuses_parameters() {
    let raised = |table: &Table, length: usize| {
        let mut out = vec![0xAA; length];
        let answer = reference::raise(&table.image(), &mut out);
        assert!(out.iter().all(|&byte| byte == 0xAA));
        answer
    };
    for table in [one_group(), exchange(), line(), hidden_choice()] {
        let length = table.image().len();
        for length in [length, 0, length - 1, length + 1] {
            assert_eq!(raised(&table, length), Answer::refused(20, 0));
        }
    }
    // The flow rules are not asked, all before them are.
    let mut table = one_group();
    table.states[3].label = 0;
    assert_eq!(reference::check(&table.image()).number, 11);
    assert_eq!(raised(&table, 0), Answer::refused(20, 0));
    table.states[2].label = 1;
    assert_eq!(raised(&table, 0), Answer::refused(9, 3));
    table.states[2].count = 3;
    assert_eq!(raised(&table, 0), Answer::refused(19, 2));
    table.registers[0].kind = PORT;
    assert_eq!(raised(&table, 0).number, 16);
}

/// Demand 3 on the reference itself.
#[test]
fn matching_lists_have_equal_views() {
    let mut findings = Findings::default();
    for seed in 1..=120 {
        if let Err(difference) = pairs_of_seed(&REFERENCE, seed, &mut findings) {
            panic!("seed {seed}: {}", difference.text);
        }
    }
    assert!(findings.able());
}

/// 4 to 8 and 16 go before 19, and 19 before 9 to 12.
#[test]
fn parameters_beside_other_faults() {
    let mut random = Random::new(32);
    let nineteen = refusal::IMAGE.iter().position(|&number| number == 19);
    let (before, after) = refusal::IMAGE.split_at(nineteen.unwrap());
    let mut met = [0; 17];
    for _ in 0..300 {
        let size = Size::random(&mut random);
        let table = any_design(&mut random, size);
        for &other in &before[3..] {
            let mut both = faults::spoiled(&table, &[19], &mut random);
            let alone = reference::check(&both.image()).number;
            faults::spoil(&mut both, other, &mut random);
            let number = reference::check(&both.image()).number;
            assert!(alone != 19 || number == 19 || before.contains(&number));
            met[other as usize] += usize::from(alone == 19 && number == other);
        }
        for &other in &after[1..] {
            let mut both = faults::spoiled(&table, &[other], &mut random);
            let alone = reference::check(&both.image()).number;
            faults::spoil(&mut both, 19, &mut random);
            let number = reference::check(&both.image()).number;
            if alone == other && first_fault(&both).is_some() {
                // A count above 2 may make a port an argument.
                assert!(matches!(number, 16 | 19));
                met[other as usize] += usize::from(number == 19);
            }
        }
    }
    let others = [&before[3..], &after[1..]].concat();
    assert!(
        others.iter().all(|&other| met[other as usize] >= 10),
        "{met:?}"
    );
}
