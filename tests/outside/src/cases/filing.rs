//! Filing and the order of designs, request E12.

use crate::answer::{Answer, Which};
use crate::compare::engine::REFERENCE;
use crate::compare::filed::Filed;
use crate::compare::filing::{filings_of_seed, fixed_images, Tallies};
use crate::designs::{largest, lease, low_child, smallest};
use crate::examples::filing::all;
use crate::generate::change::{changed, CHANGES};
use crate::generate::random::Random;
use crate::generate::{any_design, renumbered, Size};
use crate::reference;
use crate::reference::limits::LARGEST_IMAGE;

/// What a byte of the area is before a call.
const BEFORE: u8 = 0xAA;

/// The answer, and the area of this length afterwards.
fn file(image: &[u8], length: usize) -> (Answer, Vec<u8>) {
    let mut out = vec![BEFORE; length];
    let answer = reference::file(image, &mut out);
    (answer, out)
}

fn first(image: &[u8]) -> Which {
    Which {
        second: 0,
        len: image.len(),
    }
}

fn second(image: &[u8]) -> Which {
    Which {
        second: 1,
        ..first(image)
    }
}

#[test]
fn examples_are_filed_as_they_say() {
    for example in all() {
        let (image, form) = (example.table.image(), example.form.image());
        let sentence = example.sentence;
        assert_eq!(reference::check(&image).number, 0, "{sentence}");
        let filed = (Answer::accepted(form.len()), form.clone());
        assert!(file(&image, form.len()) == filed, "{sentence}");
        assert!(file(&form, form.len()) == filed, "{sentence}");
        assert!(Filed::of(&image).image() == form, "{sentence}");
        assert_eq!(reference::check(&form).number, 0, "{sentence}");
        assert!(example.table.is_renumbered(&example.form), "{sentence}");
        assert_eq!(
            reference::earlier(&image, &form),
            first(&image),
            "{sentence}"
        );
        assert_eq!(
            reference::earlier(&form, &image),
            first(&form),
            "{sentence}"
        );
    }
}

/// 24 up to one byte too few, and no byte changes; above, the bytes beyond the form keep their values.
#[test]
fn areas_of_every_length() {
    for example in all() {
        let (image, form) = (example.table.image(), example.form.image());
        for length in 0..image.len() + 40 {
            let (answer, out) = file(&image, length);
            if length < form.len() {
                assert_eq!(answer, Answer::refused(24, 0));
                assert!(out.iter().all(|&byte| byte == BEFORE));
            } else {
                assert_eq!(answer, Answer::accepted(form.len()));
                assert!(out.starts_with(&form));
                assert!(out[form.len()..].iter().all(|&byte| byte == BEFORE));
            }
        }
    }
}

#[test]
fn the_image_is_judged_first() {
    let image = low_child().image();
    for length in [0, image.len(), image.len() + 9] {
        let (answer, out) = file(&image, length);
        assert_eq!(answer, Answer::refused(9, 3));
        assert!(out.iter().all(|&byte| byte == BEFORE));
    }
    assert_eq!(file(&[], 0).0, Answer::refused(1, 0));
    assert_eq!(file(&[], 5).0, Answer::refused(1, 0));
}

/// An empty part of the first if either is refused, whichever bytes would come first.
#[test]
fn either_refused() {
    let (good, bad) = (lease().image(), low_child().image());
    for (one, other) in [(&good, &bad), (&bad, &good), (&bad, &bad)] {
        assert_eq!(reference::earlier(one, other), Which::REFUSED);
    }
    assert_eq!(reference::earlier(&good, &[]), Which::REFUSED);
    assert_eq!(reference::earlier(&[], &good), Which::REFUSED);
    assert_eq!(reference::earlier(&[], &[]), Which::REFUSED);
    assert_eq!(reference::earlier(&good, &good[..234]), Which::REFUSED);
}

/// The sections' lengths come first, so that the smallest design is before the lease design.
#[test]
fn the_earlier_of_two() {
    let (small, large) = (smallest().image(), lease().image());
    assert_eq!(reference::earlier(&small, &large), first(&small));
    assert_eq!(reference::earlier(&large, &small), second(&small));
    // Four bytes, the least significant first: 256 is before 3.
    let mut other = lease();
    other.registers[0].reset = 256;
    let other = other.image();
    assert_eq!(reference::earlier(&large, &other), second(&other));
    assert_eq!(reference::earlier(&other, &large), first(&other));
}

#[test]
fn the_largest_design() {
    let mut random = Random::new(12);
    let form = Filed::of(&largest().image()).image();
    assert_eq!(form.len(), LARGEST_IMAGE);
    for _ in 0..10 {
        let image = renumbered(&largest(), &mut random).image();
        assert!(file(&image, form.len()) == (Answer::accepted(form.len()), form.clone()));
    }
}

/// Renumbered designs are the same, accepted, and mostly other bytes; changed ones are others.
#[test]
fn the_generators() {
    let mut random = Random::new(5);
    let (mut moved, mut others) = (0, [0; CHANGES.len()]);
    for _ in 0..200 {
        let size = Size::random(&mut random);
        let table = any_design(&mut random, size);
        let numbered = renumbered(&table, &mut random);
        assert!(table.is_renumbered(&numbered));
        assert_eq!(reference::check(&numbered.image()), Answer::accepted(0));
        moved += usize::from(table != numbered);
        for (change, count) in CHANGES.into_iter().zip(&mut others) {
            *count += usize::from(changed(&table, change, &mut random).is_some());
        }
    }
    assert!(moved >= 100, "{moved} of 200 are renumbered");
    assert!(others.iter().all(|&count| count >= 10), "{others:?} of 200");
}

/// Every reason of the comparison is met by few seeds.
#[test]
fn filings_are_met() {
    let mut tallies = Tallies::default();
    let fixed = fixed_images(&REFERENCE, &mut tallies);
    fixed.map_err(|difference| difference.text).unwrap();
    for seed in 1..=60 {
        let compared = filings_of_seed(&REFERENCE, seed, &mut tallies);
        compared.map_err(|difference| difference.text).unwrap();
        if tallies.missing().is_empty() {
            return;
        }
    }
    panic!("{:?}", tallies.missing());
}
