//! The lease design: its bytes, its listing, P1 to P3.

use super::{listed, Areas};
use crate::designs::{lease, timer_is_a_port};
use crate::reference::listing;

#[test]
fn image_has_the_documented_pairs() {
    let image = lease().image();
    assert_eq!(image.len(), 235);
    let fields: Vec<u16> = image[..20]
        .chunks(2)
        .map(|field| u16::from_le_bytes([field[0], field[1]]))
        .collect();
    assert_eq!(fields, [20, 4, 24, 14, 38, 45, 83, 104, 187, 48]);
}

#[test]
fn p1_listing_of_four_cycles() {
    let expected = "cycle;walk;registers\n\
                    1;0 1;3 0\n\
                    2;0 2 3;2 0\n\
                    3;0 2 3;1 0\n\
                    4;0 2;0 0\n";
    assert_eq!(listed(&lease(), 4), expected);
}

#[test]
fn listing_of_no_cycle_is_the_header() {
    assert_eq!(listed(&lease(), 0), "cycle;walk;registers\n");
}

#[test]
fn listing_of_most_cycles() {
    let text = listed(&lease(), u16::MAX);
    assert_eq!(text.lines().count(), 65_536);
    assert_eq!(text.lines().last(), Some("65535;0 2 3;1 0"));
}

#[test]
fn listing_refuses() {
    let refused = |input: &[u8]| String::from_utf8(listing(input)).unwrap();
    assert_eq!(refused(&[]), "refused;1;0\n");
    assert_eq!(refused(&[4]), "refused;1;0\n");
    assert_eq!(refused(&[4, 0]), "refused;1;0\n");
    let mut table = lease();
    table.states[3].parent = 3;
    let counted = |image: Vec<u8>| [vec![4, 0], image].concat();
    assert_eq!(refused(&counted(table.image())), "refused;4;3\n");
    let image = timer_is_a_port().image();
    assert_eq!(refused(&counted(image)), "refused;16;1\n");
}

#[test]
fn p2_port_seven_walks_to_four() {
    let mut areas = Areas::reset(&lease());
    assert_eq!(areas.write_port(1, 7).number, 0);
    areas.run(2);
    assert_eq!(areas.walk(), [0, 2, 4]);
}

#[test]
fn p3_goto_clears_deeper_choices() {
    let mut areas = Areas::reset(&lease());
    areas.set_targets(&[1, 1, 4, 3, 4]);
    assert_eq!(areas.run(1).count, 1);
    assert_eq!(areas.only_targets(), [2, 1, 3, 3, 4]);
}
