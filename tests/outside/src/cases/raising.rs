//! Raising, request E6.

use crate::answer::Answer;
use crate::compare::passes::Passes;
use crate::compare::raised::{note_raised, Raised};
use crate::compare::tally::Tally;
use crate::designs::{longest_chain, low_child, three_states};
use crate::examples::raising::all;
use crate::generate::random::Random;
use crate::generate::{chained, design, faults, lowered, Size};
use crate::reference;
use crate::reference::image::Image;
use crate::reference::labelings::{try_all, Raisings};
use crate::reference::labels::Labels;
use crate::reference::limits::{MOST_COMMANDS, MOST_EXPRESSIONS, MOST_LABELS, MOST_REGISTERS};

/// What a byte of the area is before a call.
const BEFORE: u8 = 0xAA;

/// The answer, and the area of this length afterwards.
fn raise(image: &[u8], length: usize) -> (Answer, Vec<u8>) {
    let mut out = vec![BEFORE; length];
    let answer = reference::raise(image, &mut out);
    (answer, out)
}

#[test]
fn examples_are_raised_as_they_say() {
    for example in all() {
        let (answer, out) = raise(&example.image, example.image.len());
        match &example.expected {
            Ok(labels) => {
                let expected = reference::with_labels(&example.image, labels);
                assert_eq!(answer, Answer::accepted(0), "{}", example.sentence);
                assert!(out == expected, "{}", example.sentence);
                assert_eq!(reference::check(&out).number, 0, "{}", example.sentence);
                let again = raise(&out, out.len());
                assert!(again == (answer, out), "{}", example.sentence);
            }
            Err((number, place)) => {
                let refused = Answer::refused(*number, *place);
                assert_eq!(answer, refused, "{}", example.sentence);
                assert!(out.iter().all(|&byte| byte == BEFORE));
            }
        }
    }
}

/// Existence and leastness by all labelings, on the examples that are small enough.
#[test]
fn examples_by_all_labelings() {
    let mut tried = 0;
    for example in all() {
        let expected = match &example.expected {
            Ok(labels) => Some(reference::with_labels(&example.image, labels)),
            Err((18, 0)) => None,
            Err(_) => continue,
        };
        match try_all(&example.image, 1_000) {
            Some(Raisings::None) => assert!(expected.is_none(), "{}", example.sentence),
            Some(Raisings::Least(least, _)) => {
                assert!(Some(least) == expected, "{}", example.sentence);
            }
            Some(Raisings::NoLeast) => panic!("no least: {}", example.sentence),
            None => continue,
        }
        tried += 1;
    }
    assert!(tried >= 15, "{tried} examples are small enough");
}

/// After the image checks, and before 18.
#[test]
fn another_length() {
    let hopeless = three_states(|table| {
        let condition = table.read(1);
        let then = table.goto(1);
        let otherwise = table.goto(2);
        table.branch(condition, then, otherwise)
    });
    let image = hopeless.image();
    assert_eq!(raise(&image, image.len()).0, Answer::refused(18, 0));
    for length in [0, 1, image.len() - 1, image.len() + 1, 2 * image.len()] {
        let (answer, out) = raise(&image, length);
        assert_eq!(answer, Answer::refused(14, 0));
        assert!(out.iter().all(|&byte| byte == BEFORE));
    }
    let image = low_child().image();
    assert_eq!(raise(&image, 0).0, Answer::refused(9, 3));
    assert_eq!(raise(&[], 0).0, Answer::refused(1, 0));
    assert_eq!(raise(&[], 5).0, Answer::refused(1, 0));
}

/// A label moves on by one register in each pass, and a last one finds nothing to raise.
#[test]
fn passes_of_the_longest_chain() {
    let table = longest_chain();
    assert_eq!(table.expressions.len(), MOST_EXPRESSIONS);
    assert!(table.commands.len() + 1 >= MOST_COMMANDS);
    let bytes = table.image();
    let image = Image::open(&bytes).unwrap();
    let labels = Labels::judge(&image).unwrap();
    let own = table.registers.iter().map(|register| register.label);
    let (passes, raised) = Passes::of(&image, &labels, own.collect());
    assert_eq!(passes, MOST_REGISTERS);
    assert_eq!(raised, [MOST_LABELS as u8 - 1; MOST_REGISTERS]);
}

/// Designs whose labels were lowered come back at or below what they were.
#[test]
fn lowered_designs_are_raised() {
    let mut random = Random::new(26);
    let mut rose = 0;
    for _ in 0..300 {
        let size = Size::random(&mut random);
        let table = design(&mut random, size);
        let image = lowered(&table, &mut random).image();
        let (answer, out) = raise(&image, image.len());
        assert_eq!(answer, Answer::accepted(0));
        let raised = Image::open(&out).unwrap();
        for (raised, old) in raised.registers().zip(&table.registers) {
            assert!(table.flows(raised.label, old.label));
        }
        rose += usize::from(out != image);
    }
    assert!(rose >= 60, "{rose} of 300 were raised");
}

/// The generators come to every answer and reason, and to what trying all labelings tells.
#[test]
fn raisings_are_met() {
    let mut random = Random::new(27);
    let mut tally = Tally::default();
    for round in 0..900 {
        let table = match round % 3 {
            0 => {
                let size = Size::random(&mut random);
                let table = lowered(&design(&mut random, size), &mut random);
                faults::leaking(&table, &mut random)
            }
            _ => chained(&mut random),
        };
        let image = table.image();
        let right = image.len();
        for length in [right, *random.pick(&[0, right - 1, right + 1])] {
            let (answer, out) = raise(&image, length);
            let raised = Raised {
                image: &image,
                out: &out,
            };
            note_raised(&mut tally, &raised, answer).unwrap();
        }
    }
    assert_eq!(tally.missing_reasons(), [""; 0]);
}
