//! The examples have the verdicts that they say.

use crate::designs::largest;
use crate::examples;
use crate::reference;
use crate::reference::limits::LARGEST_IMAGE;
use crate::reference::refusal;

#[test]
fn verdicts() {
    for example in examples::all() {
        let answer = reference::check(&example.image);
        let verdict = (answer.number, answer.place);
        assert_eq!(verdict, example.verdict, "{}", example.sentence);
        assert_eq!(answer.count, 0);
    }
}

#[test]
fn listings() {
    for example in examples::all() {
        let (number, place) = example.verdict;
        let expected = match number {
            0 => "cycle;walk;registers\n".to_string(),
            _ => format!("refused;{number};{place}\n"),
        };
        let listing = reference::listing(&[&[0, 0], &example.image[..]].concat());
        assert_eq!(listing, expected.as_bytes(), "{}", example.sentence);
    }
}

#[test]
fn every_refusal_of_an_image_has_an_example() {
    let examples = examples::all();
    for number in [&[0], refusal::IMAGE].concat() {
        assert!(examples.iter().any(|example| example.verdict.0 == number));
    }
}

#[test]
fn an_image_one_byte_longer_than_the_largest() {
    let answer = reference::check(&[0; LARGEST_IMAGE + 1]);
    assert_eq!((answer.number, answer.place), (1, 0));
}

#[test]
fn every_count_at_its_limit() {
    let image = largest().image();
    assert_eq!(image.len(), LARGEST_IMAGE);
    assert_eq!(reference::check(&image).number, 0);
}
