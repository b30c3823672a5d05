//! Check: time for each image and byte.

use super::measure::{in_turns, Call};
use super::subjects::{by_size, Subject};
use crate::answer::Answer;
use crate::{library, reference};
use std::hint::black_box;

const ROUNDS: usize = 41;

pub fn print() {
    let subjects = by_size();
    let mut calls = Vec::new();
    for subject in &subjects {
        calls.push(checking(subject, library::check));
        calls.push(checking(subject, reference::check));
    }
    let times = in_turns(ROUNDS, &mut calls);
    println!("check: medians; all images, library and reference in turns");
    println!(
        "{:<10} {:>6} {:>12} {:>13} {:>16} {:>18} {:>18}",
        "image",
        "bytes",
        "library µs",
        "reference µs",
        "library ns/byte",
        "reference ns/byte",
        "library/reference"
    );
    let mut per_byte = Vec::new();
    for (subject, times) in subjects.iter().zip(times.chunks(2)) {
        let (library, reference) = (times[0], times[1]);
        let bytes = subject.bytes() as f64;
        println!(
            "{:<10} {:>6} {:>12.2} {:>13.2} {:>16.2} {:>18.2} {:>18.2}",
            subject.name,
            subject.bytes(),
            library * 1e6,
            reference * 1e6,
            library * 1e9 / bytes,
            reference * 1e9 / bytes,
            library / reference,
        );
        per_byte.push((library / bytes, reference / bytes));
    }
    let (quarter, largest) = (per_byte[1], per_byte[3]);
    println!(
        "time for a byte, largest to quarter: library {:.2}, reference {:.2}",
        largest.0 / quarter.0,
        largest.1 / quarter.1
    );
}

/// Checks one of the subject's images after the other.
fn checking(subject: &Subject, check: fn(&[u8]) -> Answer) -> Call<'_> {
    let mut images = subject.images.iter().cycle();
    Box::new(move || {
        let image = images.next().expect("a subject has images");
        black_box(check(black_box(image)));
    })
}
