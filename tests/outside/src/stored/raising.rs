//! Request E6: images raised into areas of other bytes, and what is refused. No byte changes then.

use super::Script;
use crate::designs::{lease, low_child, three_states, timer_is_a_port};
use crate::examples::raising::all;
use crate::table::Table;

/// An area is printed whole, so the largest designs stay out.
const LONGEST: usize = 1_000;

pub fn add(script: &mut Script) {
    for example in all() {
        let length = example.image.len();
        if length <= LONGEST {
            script.note(example.sentence).image(&example.image);
            script.raise(length, 0xAA);
        }
    }
    lengths(script);
    image_first(script);
}

fn lengths(script: &mut Script) {
    let image = lease().image();
    let length = image.len();
    script
        .note("what the area held does not matter")
        .image(&image);
    script.raise(length, 0).raise(length, 255);
    script
        .note("14: an area one too short")
        .raise(length - 1, 1);
    script.note("14: an area one too long").raise(length + 1, 2);
    script.note("14: an area of no bytes").raise(0, 3);
    let hopeless = three_states(secret_goto).image();
    script.note("14 before 18").image(&hopeless);
    script.raise(hopeless.len() - 1, 4).raise(0, 5);
    script
        .note("18, and no byte changes")
        .raise(hopeless.len(), 6);
}

fn image_first(script: &mut Script) {
    for (sentence, image) in [
        (
            "1 before 14: an image cut short",
            lease().image()[..234].to_vec(),
        ),
        ("9 before 14: a low child", low_child().image()),
        (
            "16 before 14: the timer is a port",
            timer_is_a_port().image(),
        ),
    ] {
        script.note(sentence).image(&image);
        script.raise(image.len(), 7).raise(4, 8);
    }
    script
        .note("1: no image")
        .image(&[])
        .raise(0, 9)
        .raise(3, 9);
}

/// If r1 then goto 1 else goto 2, which no labels of inner registers would mend.
fn secret_goto(table: &mut Table) -> u16 {
    let condition = table.read(1);
    let then = table.goto(1);
    let otherwise = table.goto(2);
    table.branch(condition, then, otherwise)
}
