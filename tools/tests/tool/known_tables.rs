//! Texts that must give bytes known from elsewhere.

use crate::common::{designs, text};
use caisson_tests::reference::listing;
use caisson_tools::assemble;

/// The numbers of the array in the C test, without its comments.
fn lease_of_the_c_test() -> Vec<u8> {
    let source = text("tests/c/calls.c");
    let (_, array) = source.split_once("lease[] = {").expect("the array");
    let (array, _) = array.split_once("};").expect("its end");
    let mut numbers = String::new();
    for piece in array.split("/*") {
        numbers += piece.split_once("*/").map_or(piece, |(_, rest)| rest);
    }
    let numbers = numbers.split(',').map(str::trim);
    let numbers = numbers.filter(|number| !number.is_empty());
    numbers.map(|number| number.parse().unwrap()).collect()
}

#[test]
fn lease_is_the_table_of_document_01() {
    let image = assemble(&text("designs/lease.caisson")).unwrap();
    assert_eq!(image.len(), 235);
    let pairs = [20, 4, 24, 14, 38, 45, 83, 104, 187, 48];
    let pairs: Vec<u8> = pairs.into_iter().flat_map(u16::to_le_bytes).collect();
    assert_eq!(image[..20], pairs);
    assert_eq!(image, lease_of_the_c_test());
}

#[test]
fn lease_runs_as_document_01_says() {
    let image = assemble(&text("designs/lease.caisson")).unwrap();
    let lines = listing(&[&[4, 0], &image[..]].concat());
    let expected = "cycle;walk;registers\n1;0 1;3 0\n2;0 2 3;2 0\n3;0 2 3;1 0\n4;0 2;0 0\n";
    assert_eq!(String::from_utf8(lines).unwrap(), expected);
}

#[test]
fn two_groups_is_the_worked_design() {
    let image = assemble(&text("designs/two_groups.caisson")).unwrap();
    assert_eq!(image, caisson_tests::designs::two_groups().image());
}

/// The listings stored beside their designs, which the gate compares with the proved lister too.
#[test]
fn designs_run_as_their_listings_say() {
    let names = designs("listing");
    assert!(names.contains(&"tank".to_string()));
    for name in names {
        let image = assemble(&text(&format!("designs/{name}.caisson"))).unwrap();
        let expected = text(&format!("designs/{name}.listing"));
        let cycles = expected.lines().count() as u16 - 1;
        let lines = listing(&[&cycles.to_le_bytes(), &image[..]].concat());
        assert_eq!(String::from_utf8(lines).unwrap(), expected, "{name}");
    }
}
