//! Raise: beside a check of the same image, and beside the reference.

use super::measure::{in_turns, Call};
use super::subjects::{for_raising, passes, Subject};
use crate::answer::Answer;
use crate::{library, reference};
use std::hint::black_box;

const ROUNDS: usize = 21;

pub fn print() {
    let subjects = for_raising();
    let mut calls: Vec<Call> = Vec::new();
    for subject in &subjects {
        calls.push(raising(subject, library::raise));
        calls.push(raising(subject, reference::raise));
        calls.push(checking(subject));
    }
    let times = in_turns(ROUNDS, &mut calls);
    println!("raise: medians; passes that raise some label are the most of an image");
    println!("image       bytes  passes  library µs  reference µs  library/reference  check µs  raise/check");
    for (subject, times) in subjects.iter().zip(times.chunks(3)) {
        let (library, reference, check) = (times[0], times[1], times[2]);
        println!(
            "{:<10} {:>6} {:>7} {:>11.2} {:>13.2} {:>18.2} {:>9.2} {:>12.2}",
            subject.name,
            subject.bytes(),
            subject
                .images
                .iter()
                .map(|image| passes(image))
                .max()
                .unwrap_or(0),
            library * 1e6,
            reference * 1e6,
            library / reference,
            check * 1e6,
            library / check,
        );
    }
}

type Raise = fn(&[u8], &mut [u8]) -> Answer;

/// Raises one of the subject's images after the other, each into the same area.
fn raising(subject: &Subject, raise: Raise) -> Call<'_> {
    let mut images = subject.images.iter().cycle();
    let longest = subject.images.iter().map(Vec::len).max();
    let mut out = vec![0; longest.unwrap_or(0)];
    Box::new(move || {
        let image = images.next().expect("a subject has images");
        black_box(raise(black_box(image), &mut out[..image.len()]));
    })
}

fn checking(subject: &Subject) -> Call<'_> {
    let mut images = subject.images.iter().cycle();
    Box::new(move || {
        let image = images.next().expect("a subject has images");
        black_box(library::check(black_box(image)));
    })
}
