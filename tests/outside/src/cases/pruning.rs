//! Pruning, request E11.

use super::Areas;
use crate::answer::Answer;
use crate::compare::engine::REFERENCE;
use crate::compare::pruned::Pruned;
use crate::compare::pruning::{prunings_of_seed, Tallies};
use crate::designs::{going_down, going_round, largest, lease, low_child, spare_child};
use crate::examples::pruning::all;
use crate::generate::random::Random;
use crate::generate::{any_design, with_spares, Size};
use crate::reference;
use crate::reference::image::Image;
use crate::reference::limits::MOST_STATES;

/// What a byte of the area is before a call.
const BEFORE: u8 = 0xAA;

/// The answer, and the area of this length afterwards.
fn prune(image: &[u8], length: usize) -> (Answer, Vec<u8>) {
    let mut out = vec![BEFORE; length];
    let answer = reference::prune(image, &mut out);
    (answer, out)
}

/// The states that are reached.
fn reached(image: &[u8]) -> Vec<u8> {
    let reached = reference::reached(&Image::open(image).unwrap());
    let numbers = 0..reached.len() as u8;
    numbers
        .filter(|&state| reached[usize::from(state)])
        .collect()
}

#[test]
fn examples_are_pruned_as_they_say() {
    for example in all() {
        let (image, result) = (example.table.image(), example.result.image());
        assert_eq!(reference::check(&image).number, 0, "{}", example.sentence);
        assert_eq!(reached(&image), example.kept, "{}", example.sentence);
        let (answer, out) = prune(&image, result.len());
        assert_eq!(
            answer,
            Answer::accepted(result.len()),
            "{}",
            example.sentence
        );
        assert!(out == result, "{}", example.sentence);
        assert_eq!(reference::check(&out).number, 0, "{}", example.sentence);
        assert!(
            prune(&out, out.len()) == (answer, out),
            "{}",
            example.sentence
        );
        assert!(Pruned::of(&image).image() == result, "{}", example.sentence);
    }
}

/// 24 up to one byte too few, and no byte changes; above, the bytes beyond the result keep their values.
#[test]
fn areas_of_every_length() {
    for table in [lease(), spare_child()] {
        let image = table.image();
        let result = Pruned::of(&image).image();
        for length in 0..image.len() + 40 {
            let (answer, out) = prune(&image, length);
            if length < result.len() {
                assert_eq!(answer, Answer::refused(24, 0));
                assert!(out.iter().all(|&byte| byte == BEFORE));
            } else {
                assert_eq!(answer, Answer::accepted(result.len()));
                assert!(out.starts_with(&result));
                assert!(out[result.len()..].iter().all(|&byte| byte == BEFORE));
            }
        }
    }
}

#[test]
fn the_image_is_judged_first() {
    let image = low_child().image();
    for length in [0, image.len(), image.len() + 9] {
        let (answer, out) = prune(&image, length);
        assert_eq!(answer, Answer::refused(9, 3));
        assert!(out.iter().all(|&byte| byte == BEFORE));
    }
    assert_eq!(prune(&[], 0).0, Answer::refused(1, 0));
    assert_eq!(prune(&[], 5).0, Answer::refused(1, 0));
    // In a state that is not reached: r0, of label 0, takes what r1, of label 1, has.
    let mut leaking = spare_child();
    let value = leaking.expressions.len() - 1;
    leaking.expressions[value] = crate::table::Node {
        kind: 1,
        which: 1,
        ..Default::default()
    };
    let assign = leaking.commands.len() as u16 - 3;
    assert_eq!(
        prune(&leaking.image(), 0).0,
        Answer::refused(10, assign.into())
    );
}

#[test]
fn the_largest_design() {
    let all: Vec<u8> = (0..MOST_STATES as u8).collect();
    for table in [largest(), going_down(&largest())] {
        let image = table.image();
        assert_eq!(reached(&image), all);
        let (answer, out) = prune(&image, image.len());
        assert_eq!(answer, Answer::accepted(image.len()));
        assert!(out == image);
    }
    let round = going_round(&largest(), 31).image();
    assert_eq!(reached(&round), all[..32]);
}

/// The same four cycles, under the new numbers.
#[test]
fn runs_of_an_example() {
    let all = all();
    let example = all.iter().find(|example| example.kept == [0, 1, 3, 5, 6]);
    let example = example.expect("one with a state dropped between others");
    let mut one = Areas::reset(&example.table);
    let mut other = Areas::reset(&example.result);
    let mut walks = Vec::new();
    for value in [1, 1, 1, 0, 1] {
        assert_eq!(one.write_port(0, value), other.write_port(0, value));
        walks.push((one.walk(), other.walk()));
        assert_eq!((one.run(1), other.run(1)).0, Answer::accepted(1));
        assert_eq!(one.values(), other.values());
    }
    let expected: [(&[u8], &[u8]); 5] = [
        (&[0, 1], &[0, 1]),
        (&[0, 3, 5], &[0, 2, 3]),
        (&[0, 3, 6], &[0, 2, 4]),
        (&[0, 3], &[0, 2]),
        (&[0, 1], &[0, 1]),
    ];
    for ((one, other), (before, after)) in walks.iter().zip(expected) {
        assert_eq!((&one[..], &other[..]), (before, after));
    }
    assert_eq!(one.values(), [1, 1]);
}

/// Spare states are put in as they should be, and none of the design's own comes to be reached by them.
#[test]
fn spares_are_not_reached() {
    let mut random = Random::new(31);
    let mut grown = 0;
    for _ in 0..300 {
        let size = Size::random(&mut random);
        let table = any_design(&mut random, size);
        let spared = with_spares(&table, &mut random);
        let (image, more) = (table.image(), spared.image());
        assert_eq!(reference::check(&more), Answer::accepted(0));
        assert_eq!(reached(&image).len(), reached(&more).len());
        grown += usize::from(spared.states.len() > table.states.len());
    }
    assert!(grown >= 200, "{grown} of 300 have spare states");
}

/// Every reason of the comparison is met by few seeds.
#[test]
fn prunings_are_met() {
    let mut tallies = Tallies::default();
    for seed in 1..=40 {
        let compared = prunings_of_seed(&REFERENCE, seed, &mut tallies);
        compared.map_err(|difference| difference.text).unwrap();
        if tallies.missing().is_empty() {
            return;
        }
    }
    panic!("{:?}", tallies.missing());
}
