//! Wrong lengths, and refused images with good areas. No lent byte changes.

use super::Script;
use crate::designs::{fall_before_assignment, lease, low_child, timer_is_a_port};

pub fn add(script: &mut Script) {
    let image = lease().image();
    script.note("14: 4 bytes for two registers").image(&image);
    wrong(script, 4, 15);
    script.note("14: registers one too short");
    wrong(script, 7, 15);
    script.note("14: registers one too long");
    wrong(script, 9, 15);
    script.note("14: registers empty");
    wrong(script, 0, 15);
    script.note("14: registers the longest that are stored");
    wrong(script, 264, 15);
    script.note("14: targets one too short");
    wrong(script, 8, 14);
    script.note("14: targets one too long");
    wrong(script, 8, 16);
    script.note("14: targets without bindings");
    wrong(script, 8, 5);
    script.note("14: one binding for each state");
    wrong(script, 8, 10);
    script.note("14: targets empty");
    wrong(script, 8, 0);
    script.note("14: both areas empty");
    wrong(script, 0, 0);
    script.note("14: a wrong length before an unsound target");
    script.areas(&[0; 7], &[0, 1, 2, 3, 4]).run(1);
    refused_images(script, &image);
}

/// Each call on areas of these lengths, with bytes that a change would show in.
fn wrong(script: &mut Script, registers: usize, targets: usize) {
    let registers: Vec<u8> = (0..registers).map(|i| 100 + (i % 100) as u8).collect();
    let targets = &[1, 1, 3, 3, 4, 0, 1, 0, 1, 0, 1, 0, 1, 0, 1, 0][..targets];
    script.lent(&registers, targets);
    script.reset().write(1, 7).run(0).run(1).run(1_000_001);
}

fn refused_images(script: &mut Script, image: &[u8]) {
    script
        .note("a refused image, good areas")
        .image(&image[..234])
        .areas(&[3, 0, 0, 0, 0, 0, 0, 0], &[1, 1, 3, 3, 4]);
    script.reset().write(1, 7).run(1);
    script
        .note("an image refused by 9, good areas")
        .image(&low_child().image());
    script.reset().write(1, 7).run(1);
    script
        .note("the image checks come first")
        .areas(&[1, 2, 3], &[9]);
    script.reset().write(9, 9).run(1_000_001);
    script
        .note("16 before 13 to 15: wrong areas")
        .image(&timer_is_a_port().image());
    script.reset().write(9, 9).run(1_000_001);
    script
        .note("an image refused by 16, good areas")
        .areas(&[3, 0, 0, 0, 0, 0, 0, 0], &[1, 1, 3, 3, 4]);
    script.reset().write(0, 7).write(9, 9);
    script.run(0).run(1).run(1_000_001);
    script
        .note("an image refused by 12, which is read before a lower 10")
        .design(&fall_before_assignment());
    script.reset().write(1, 7).run(0).run(1);
}
