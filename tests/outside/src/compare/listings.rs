//! The cycle lister as a program: the examples and random inputs, its output compared with the
//! reference's.

use super::difference::Difference;
use crate::designs;
use crate::examples;
use crate::generate::random::Random;
use crate::generate::{any_design, faults, Size};
use crate::reference;
use std::io::{self, Write};
use std::process::{Command, Stdio};
use std::thread;

/// Three cycles of every example, or its refusal.
pub fn listings_of_examples(program: &str) -> Result<(), Difference> {
    let mut examples = examples::all().into_iter();
    examples.try_for_each(|example| compare(program, &[&[3, 0], &example.image[..]].concat()))
}

pub fn listings_of_seed(program: &str, seed: u64) -> Result<(), Difference> {
    compare(program, &any_input(&mut Random::new(seed)))
}

fn compare(program: &str, input: &[u8]) -> Result<(), Difference> {
    let expected = reference::listing(input);
    let given = listed(program, input).unwrap_or_else(|error| error.to_string().into_bytes());
    if given == expected {
        return Ok(());
    }
    let same = given.iter().zip(&expected).take_while(|(g, e)| g == e);
    let place = same.count();
    let what = format!("listing of these bytes differs from byte {place} on");
    let show = |text: &[u8]| {
        let end = text.len().min(place + 40);
        String::from_utf8_lossy(&text[place.min(end)..end]).into_owned()
    };
    Err(Difference::new(input, &what, show(&given), show(&expected)))
}

fn any_input(random: &mut Random) -> Vec<u8> {
    let size = Size::random(random);
    let table = match random.below(15) {
        0 => designs::lease(),
        1 => designs::two_groups(),
        2 => designs::smallest(),
        3 => designs::valve(),
        4 => designs::powers_of_ten(),
        5 => designs::level(),
        6 => designs::spare_child(),
        7 => designs::one_group(),
        8 => designs::exchange(),
        9 => designs::line(),
        10 => designs::hidden_choice(),
        _ => any_design(random, size),
    };
    let count = match random.below(8) {
        0 => 0,
        1 => 1,
        2 if table.commands.len() < 20 => u16::MAX,
        3 => 300,
        _ => random.below(40) as u16,
    };
    let mut input = count.to_le_bytes().to_vec();
    input.extend(match random.below(10) {
        0 => faults::damaged(table.image(), random),
        1 => faults::spoil_directory(&table, random),
        2 => {
            let number = *random.pick(faults::NUMBERS);
            faults::spoiled(&table, &[number], random).image()
        }
        3 => faults::leaking(&table, random).image(),
        _ => table.image(),
    });
    match random.below(20) {
        0 => input.truncate(random.below(5)),
        1 => input = faults::resized(input, random),
        _ => {}
    }
    input
}

fn listed(program: &str, input: &[u8]) -> io::Result<Vec<u8>> {
    let mut child = Command::new(program)
        .stdin(Stdio::piped())
        .stdout(Stdio::piped())
        .spawn()?;
    let mut to_child = child.stdin.take().expect("a piped input");
    thread::scope(|scope| {
        // A lister need not read more than the largest image and one byte.
        scope.spawn(move || to_child.write_all(input).ok());
        Ok(child.wait_with_output()?.stdout)
    })
}
