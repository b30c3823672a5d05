//! Prune: beside a check of the same image, and beside the reference.

use super::measure::{in_turns, Call};
use super::subjects::{for_pruning, Subject};
use crate::answer::Answer;
use crate::{library, reference};
use std::hint::black_box;

const ROUNDS: usize = 21;

pub fn print() {
    let subjects = for_pruning();
    let mut calls: Vec<Call> = Vec::new();
    for subject in &subjects {
        calls.push(pruning(subject, library::prune));
        calls.push(pruning(subject, reference::prune));
        calls.push(checking(subject));
    }
    let times = in_turns(ROUNDS, &mut calls);
    println!("prune: medians; bytes of the image and of the result");
    println!(
        "image       bytes  result  library µs  reference µs  library/reference  check µs  prune/check"
    );
    let mut per_byte = Vec::new();
    for (subject, times) in subjects.iter().zip(times.chunks(3)) {
        let (library, reference, check) = (times[0], times[1], times[2]);
        println!(
            "{:<10} {:>6} {:>7} {:>11.2} {:>13.2} {:>18.2} {:>9.2} {:>12.2}",
            subject.name,
            subject.bytes(),
            result_bytes(subject),
            library * 1e6,
            reference * 1e6,
            library / reference,
            check * 1e6,
            library / check,
        );
        let bytes = subject.bytes() as f64;
        per_byte.push((library / bytes, reference / bytes));
    }
    let (quarter, largest) = (per_byte[0], per_byte[2]);
    println!(
        "time for a byte, largest to quarter: library {:.2}, reference {:.2}",
        largest.0 / quarter.0,
        largest.1 / quarter.1
    );
}

fn result_bytes(subject: &Subject) -> usize {
    let image = &subject.images[0];
    reference::prune(image, &mut vec![0; image.len()]).count
}

type Prune = fn(&[u8], &mut [u8]) -> Answer;

/// Prunes one of the subject's images after the other, each into the same area.
fn pruning(subject: &Subject, prune: Prune) -> Call<'_> {
    let mut images = subject.images.iter().cycle();
    let longest = subject.images.iter().map(Vec::len).max();
    let mut out = vec![0; longest.unwrap_or(0)];
    Box::new(move || {
        let image = images.next().expect("a subject has images");
        black_box(prune(black_box(image), &mut out));
    })
}

fn checking(subject: &Subject) -> Call<'_> {
    let mut images = subject.images.iter().cycle();
    Box::new(move || {
        let image = images.next().expect("a subject has images");
        black_box(library::check(black_box(image)));
    })
}
