//! Ports belong to the host: request E1.

use super::Areas;
use crate::answer::Answer;
use crate::designs::timer_is_a_port;
use crate::generate::random::Random;
use crate::generate::{design, Size};
use crate::reference;
use crate::reference::image::PORT;

#[test]
fn a_run_leaves_every_port_as_it_was() {
    let mut random = Random::new(15);
    let (mut with_ports, mut with_changes) = (0, 0);
    for _ in 0..300 {
        let size = Size::random(&mut random);
        let table = design(&mut random, size);
        let mut areas = Areas::reset(&table);
        let before: Vec<u32> = (table.registers.iter())
            .map(|register| random.bits() as u32 & register.most())
            .collect();
        areas.set_values(&before);
        assert_eq!(areas.run(20), Answer::accepted(20));
        let after = areas.values();
        let ports = table.of_kind(PORT);
        for &port in &ports {
            assert_eq!(after[usize::from(port)], before[usize::from(port)]);
        }
        with_ports += usize::from(!ports.is_empty());
        with_changes += usize::from(after != before);
    }
    assert!(with_ports >= 100, "{with_ports} designs have ports");
    assert!(with_changes >= 100, "{with_changes} designs ran otherwise");
}

#[test]
fn the_calls_that_take_an_image_alone() {
    let image = timer_is_a_port().image();
    let refused = Answer::refused(16, 1);
    assert_eq!(reference::check(&image), refused);
    assert_eq!(reference::registers_length(&image), refused);
    assert_eq!(reference::targets_length(&image), refused);
}
