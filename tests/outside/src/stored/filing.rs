//! Request E12: images filed into areas of other bytes, the earlier of two, and what is refused. No byte changes then.

use super::Script;
use crate::designs::{lease, low_child, smallest, spare_child, timer_is_a_port, two_groups, valve};
use crate::examples::filing::all;
use crate::generate::random::Random;
use crate::table::{Node, Table};

pub fn add(script: &mut Script) {
    for example in all() {
        let (image, form) = (example.table.image(), example.form.image());
        script.note(example.sentence).image(&image);
        script
            .file(form.len(), 0xAA)
            .file(form.len() - 1, 0x55)
            .file(form.len() + 5, 0xAA)
            .earlier(&form);
        script.image(&form).earlier(&image);
    }
    numberings(script);
    lengths(script);
    image_first(script);
    one_place(script);
    designs(script);
    either_refused(script);
}

fn numberings(script: &mut Script) {
    let mut random = Random::new(12);
    for table in [two_groups(), spare_child()] {
        let image = table.image();
        for _ in 0..2 {
            let mut other = table.clone();
            other.renumber(&mut random);
            let other = other.image();
            script
                .note("one form, and of two equal ones the first is handed back")
                .image(&other);
            script.file(other.len(), 0).earlier(&image);
            script.image(&image).file(image.len(), 0).earlier(&other);
        }
    }
}

fn lengths(script: &mut Script) {
    let image = lease().image();
    script
        .note("what the area held does not matter, and is left behind the form")
        .image(&image);
    script.file(image.len() + 1, 0).file(image.len() + 3, 255);
    script.note("24: an area of no bytes").file(0, 1);
    script.note("24: an area of one byte").file(1, 2);
    script
        .note("24: a byte too few")
        .file(image.len() - 1, 0xAA);
}

fn image_first(script: &mut Script) {
    for (sentence, image) in refused() {
        script
            .note(&format!("{sentence}, before 24"))
            .image(&image)
            .file(image.len(), 3)
            .file(4, 4);
    }
    script.note("1: no image").image(&[]).file(0, 5).file(3, 5);
}

fn refused() -> [(&'static str, Vec<u8>); 3] {
    [
        ("1: an image cut short", lease().image()[..234].to_vec()),
        ("9: a low child", low_child().image()),
        ("16: the timer is a port", timer_is_a_port().image()),
    ]
}

/// The lease design and one that differs at one place, numbered so that as lent the order is the other way, where
/// there is such a numbering among a few.
fn one_place(script: &mut Script) {
    let mut random = Random::new(2);
    for (sentence, change) in changes() {
        let table = lease();
        let mut other = table.clone();
        change(&mut other);
        let misleading = (0..50).find_map(|_| {
            let (mut one, mut two) = (table.clone(), other.clone());
            one.renumber(&mut random);
            two.renumber(&mut random);
            let in_form = table.image() < other.image();
            let (one, two) = (one.image(), two.image());
            ((one < two) != in_form).then_some((one, two))
        });
        let (one, two) = misleading.unwrap_or((table.image(), other.image()));
        script.note(sentence).image(&one).earlier(&two);
        script.image(&two).earlier(&one);
    }
}

type Changes = (&'static str, fn(&mut Table));

/// The lease design is its form, and stays so.
fn changes() -> [Changes; 7] {
    [
        ("another reset value, 256 and so before 3", |table| {
            table.registers[0].reset = 256;
        }),
        ("another width", |table| table.registers[1].width = 31),
        ("another label of a state", |table| {
            table.states[4].label = 0;
            table.states[3].label = 0;
            table.registers[1].label = 0;
        }),
        ("another goto", |table| {
            let goes = |node: &&mut Node| node.kind == 4 && node.which == 4;
            let goto = table.commands.iter_mut().find(goes);
            goto.expect("a goto to state 4").which = 3;
        }),
        ("another operation", |table| table.expressions[3].kind = 2),
        ("another constant, above 127", |table| {
            table.expressions[0].b = 200
        }),
        ("the highest byte of a constant", |table| {
            table.expressions[0].c = 0x8000
        }),
    ]
}

fn designs(script: &mut Script) {
    let tables = [smallest(), lease(), two_groups(), valve()];
    let images = tables.map(|table| table.image());
    for one in &images {
        script.note("beside other designs, and itself").image(one);
        for other in &images {
            script.earlier(other);
        }
    }
}

/// An empty part of the first.
fn either_refused(script: &mut Script) {
    let good = lease().image();
    for (sentence, bad) in refused() {
        script.note(sentence).image(&good).earlier(&bad);
        script.image(&bad).earlier(&good).earlier(&bad);
    }
    script.note("1: no image").image(&good).earlier(&[]);
    script.image(&[]).earlier(&good).earlier(&[]);
}
