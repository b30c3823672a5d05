//! File and earlier: beside a check of the same image, and beside the reference.

use super::measure::{in_turns, Call};
use super::subjects::{for_filing, Subject};
use crate::answer::{Answer, Which};
use crate::{library, reference};
use std::hint::black_box;

const ROUNDS: usize = 21;

pub fn print() {
    let subjects = for_filing();
    println!("file: medians");
    let file = |subject| {
        [
            filing(subject, library::file),
            filing(subject, reference::file),
        ]
    };
    print_rows(&subjects, &file);
    println!("earlier, of an image and the same under other numbers: medians");
    let earlier = |subject| {
        [
            comparing(subject, library::earlier),
            comparing(subject, reference::earlier),
        ]
    };
    print_rows(&subjects, &earlier);
}

/// The library and the reference, and a check.
fn print_rows<'a>(subjects: &'a [Subject], both: &dyn Fn(&'a Subject) -> [Call<'a>; 2]) {
    let mut calls: Vec<Call> = Vec::new();
    for subject in subjects {
        calls.extend(both(subject));
        calls.push(checking(subject));
    }
    let times = in_turns(ROUNDS, &mut calls);
    println!(
        "image       bytes  library µs  reference µs  library/reference  check µs  call/check"
    );
    let mut per_byte = Vec::new();
    for (subject, times) in subjects.iter().zip(times.chunks(3)) {
        let (library, reference, check) = (times[0], times[1], times[2]);
        println!(
            "{:<10} {:>6} {:>11.2} {:>13.2} {:>18.2} {:>9.2} {:>11.2}",
            subject.name,
            subject.bytes(),
            library * 1e6,
            reference * 1e6,
            library / reference,
            check * 1e6,
            library / check,
        );
        let bytes = subject.bytes() as f64;
        per_byte.push((library / bytes, reference / bytes));
    }
    let (quarter, largest) = (per_byte[0], per_byte[2]);
    println!(
        "time for a byte, largest to quarter: library {:.2}, reference {:.2}",
        largest.0 / quarter.0,
        largest.1 / quarter.1
    );
}

type File = fn(&[u8], &mut [u8]) -> Answer;
type Earlier = fn(&[u8], &[u8]) -> Which;

/// Files one of the subject's images after the other, each into the same area.
fn filing(subject: &Subject, file: File) -> Call<'_> {
    let mut images = subject.images.iter().cycle();
    let longest = subject.images.iter().map(Vec::len).max();
    let mut out = vec![0; longest.unwrap_or(0)];
    Box::new(move || {
        let image = images.next().expect("a subject has images");
        black_box(file(black_box(image), &mut out));
    })
}

/// Each image and the next: all of a subject are one design, so that the forms are compared to their ends.
fn comparing(subject: &Subject, earlier: Earlier) -> Call<'_> {
    let mut images = subject.images.iter().cycle();
    let mut nexts = subject.images.iter().cycle().skip(1);
    Box::new(move || {
        let first = images.next().expect("a subject has images");
        let second = nexts.next().expect("a subject has images");
        black_box(earlier(black_box(first), black_box(second)));
    })
}

fn checking(subject: &Subject) -> Call<'_> {
    let mut images = subject.images.iter().cycle();
    Box::new(move || {
        let image = images.next().expect("a subject has images");
        black_box(library::check(black_box(image)));
    })
}
