//! Request E11: images pruned into areas of other bytes, and what is refused. No byte changes then.

use super::Script;
use crate::designs::{lease, low_child, spare_child, timer_is_a_port};
use crate::examples::pruning::all;
use crate::table::{Node, Table};

pub fn add(script: &mut Script) {
    for example in all() {
        let length = example.result.image().len();
        script.note(example.sentence).image(&example.table.image());
        script
            .prune(length, 0xAA)
            .prune(length - 1, 0x55)
            .prune(length + 5, 0xAA);
    }
    lengths(script);
    image_first(script);
}

fn lengths(script: &mut Script) {
    let image = spare_child().image();
    script
        .note("what the area held does not matter, and is left behind the result")
        .image(&image);
    script.prune(image.len(), 0).prune(image.len(), 255);
    script.note("24: an area of no bytes").prune(0, 1);
    script.note("24: an area of one byte").prune(1, 2);
}

fn image_first(script: &mut Script) {
    for (sentence, image) in [
        (
            "1 before 24: an image cut short",
            lease().image()[..234].to_vec(),
        ),
        ("9 before 24: a low child", low_child().image()),
        (
            "10 before 24: in a state that is not reached",
            leaking().image(),
        ),
        (
            "16 before 24: the timer is a port",
            timer_is_a_port().image(),
        ),
    ] {
        script.note(sentence).image(&image);
        script.prune(image.len(), 3).prune(4, 4);
    }
    script
        .note("1: no image")
        .image(&[])
        .prune(0, 5)
        .prune(3, 5);
}

/// In the spare state r0, of label 0, takes what r1, of label 1, has.
fn leaking() -> Table {
    let mut table = spare_child();
    let value = table.expressions.len() - 1;
    table.expressions[value] = Node {
        kind: 1,
        which: 1,
        ..Default::default()
    };
    table
}
