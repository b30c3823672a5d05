//! The generator keeps its word: accepted designs of every size, and every fault met.

use super::Areas;
use crate::answer::Answer;
use crate::compare::children::note_children;
use crate::compare::kinds::note_kind;
use crate::compare::operands::note_operands;
use crate::compare::parameters::note_parameters;
use crate::compare::reading::note_reading;
use crate::compare::tally::Tally;
use crate::generate::random::Random;
use crate::generate::{any_design, design, faults, parameterised, Size};
use crate::reference;
use crate::reference::image::{Image, PORT};
use crate::reference::limits::LARGEST_IMAGE;
use crate::reference::refusal;
use crate::table::Table;

#[test]
fn designs_are_accepted() {
    let mut random = Random::new(11);
    let mut read_ports = 0;
    for _ in 0..300 {
        let size = Size::random(&mut random);
        let table = design(&mut random, size);
        assert_eq!(reference::check(&table.image()).number, 0);
        assert!(!table.has_parameters());
        read_ports += usize::from(reads_port(&table));
    }
    assert!(read_ports >= 150, "{read_ports} of 300 read a port");
}

/// By bounds alone the generator keeps what the reference asks for each choice.
#[test]
fn designs_with_parameters_are_accepted() {
    let mut random = Random::new(28);
    let mut with = 0;
    for _ in 0..300 {
        let size = Size::random(&mut random);
        let table = parameterised(&mut random, size);
        assert_eq!(reference::check(&table.image()), Answer::accepted(0));
        with += usize::from(table.has_parameters());
    }
    assert!(with >= 200, "{with} of 300 have parameters");
}

fn reads_port(table: &Table) -> bool {
    let ports = table.of_kind(PORT);
    let mut expressions = table.expressions.iter();
    expressions.any(|node| node.kind == 1 && ports.contains(&node.which))
}

#[test]
fn the_largest_design_is_the_largest_image() {
    let mut random = Random::new(12);
    let image = design(&mut random, Size::LARGEST).image();
    assert_eq!(image.len(), LARGEST_IMAGE);
    assert_eq!(LARGEST_IMAGE, 25_652);
    assert_eq!(reference::check(&image).number, 0);
}

/// Most faults come to the refusal that they are meant for.
#[test]
fn faults_are_met() {
    let mut random = Random::new(13);
    let most = refusal::IMAGE.iter().max().expect("some check");
    let mut met = vec![0; *most as usize + 1];
    for _ in 0..200 {
        let size = Size::random(&mut random);
        let table = any_design(&mut random, size);
        let answer = reference::check(&faults::spoil_directory(&table, &mut random));
        met[1] += usize::from(answer.number == 1);
        for &number in faults::NUMBERS {
            let spoiled = faults::spoiled(&table, &[number], &mut random);
            let answer = reference::check(&spoiled.image());
            met[number as usize] += usize::from(answer.number == number);
        }
    }
    for &number in refusal::IMAGE {
        let met = met[number as usize];
        assert!(met >= 20, "refusal {number} met {met} times in 200");
    }
}

/// Every reason of refusal 3 is met: label, kind, width and reset value.
#[test]
fn register_faults_are_met() {
    let mut random = Random::new(16);
    let mut met = [0; 4];
    for _ in 0..400 {
        let size = Size::random(&mut random);
        let spoiled = faults::spoiled(&design(&mut random, size), &[3], &mut random);
        let answer = reference::check(&spoiled.image());
        if answer.number == 3 {
            let register = spoiled.registers[answer.place];
            let reason = if usize::from(register.label) >= spoiled.rows.len() {
                0
            } else if register.kind > PORT {
                1
            } else if !(1..=32).contains(&register.width) {
                2
            } else {
                3
            };
            met[reason] += 1;
        }
    }
    assert!(met.iter().all(|&met| met >= 50), "{met:?}");
}

/// Refusal 5 is met at kind 12 and above, and at the kinds of request E3.
#[test]
fn kinds_are_met() {
    let mut random = Random::new(19);
    let mut tally = Tally::default();
    for _ in 0..1_000 {
        let size = Size::random(&mut random);
        let image = faults::spoiled(&design(&mut random, size), &[5], &mut random).image();
        note_kind(&mut tally, &image, reference::check(&image));
    }
    assert_eq!(tally.missing_reasons(), NONE);
}

/// Accepted designs have low children of every sort, and refusal 9 is met for every reason.
#[test]
fn children_are_met() {
    let mut random = Random::new(22);
    let mut tally = Tally::default();
    for _ in 0..700 {
        let size = Size::random(&mut random);
        let table = design(&mut random, size);
        for faults in [&[][..], &[9], &[9, 9, 9]] {
            let image = faults::spoiled(&table, faults, &mut random).image();
            note_children(&mut tally, &image, reference::check(&image));
        }
    }
    assert_eq!(tally.missing_reasons(), NONE);
}

/// Every rule of refusal 19, what stands beside it in 4, 5 and 16, and flow that some choices keep.
#[test]
fn parameters_are_met() {
    let mut random = Random::new(29);
    let mut tally = Tally::default();
    for _ in 0..900 {
        let size = Size::random(&mut random);
        let table = any_design(&mut random, size);
        for faults in [
            &[][..],
            &[4],
            &[5],
            &[16],
            &[19],
            &[19, 19, 19],
            &[16, 19],
            &[9],
            &[10],
            &[11],
            &[12],
        ] {
            let image = faults::spoiled(&table, faults, &mut random).image();
            note_parameters(&mut tally, &image, reference::check(&image)).unwrap();
        }
    }
    assert_eq!(tally.missing_reasons(), NONE);
}

/// Of several faults in the flow, numbered anyhow, each is shown before each, wherever that stands.
#[test]
fn reading_is_met() {
    let mut random = Random::new(23);
    let mut tally = Tally::default();
    for _ in 0..2_000 {
        let size = Size::random(&mut random);
        let image = faults::leaking(&design(&mut random, size), &mut random).image();
        note_reading(&mut tally, &image, reference::check(&image));
    }
    assert_eq!(tally.missing_reasons(), NONE);
}

/// The operations of request E3 have every sort of operands, in the first cycle already.
#[test]
fn operands_are_met() {
    let mut random = Random::new(20);
    let mut tally = Tally::default();
    for _ in 0..3_000 {
        let size = Size::random(&mut random);
        let areas = Areas::reset(&design(&mut random, size));
        let image = Image::open(&areas.image).expect("an accepted image");
        note_operands(&mut tally, &image, &areas.registers, &areas.targets);
    }
    assert_eq!(tally.missing_reasons(), NONE);
}

const NONE: [&str; 0] = [];

/// Designs have narrow and wide registers of both kinds, and reset values at both ends.
#[test]
fn widths_are_met() {
    let mut random = Random::new(17);
    let mut met = [[[0; 2]; 33]; 2];
    for _ in 0..300 {
        let size = Size::random(&mut random);
        for register in design(&mut random, size).registers {
            let met = &mut met[usize::from(register.kind)][usize::from(register.width)];
            met[0] += usize::from(register.reset == 0);
            met[1] += usize::from(register.reset == register.most());
        }
    }
    for widths in met {
        assert_eq!(widths[0], [0, 0]);
        assert!(widths[1..].iter().flatten().all(|&met| met > 0));
    }
}

#[test]
fn values_on_either_side_of_a_width() {
    let mut random = Random::new(18);
    for width in 1..=32 {
        let bound = 1u64 << width;
        let fitting: Vec<u64> = (0..200).map(|_| random.fitting(width).into()).collect();
        assert!(fitting.iter().all(|&value| value < bound));
        assert!(fitting.contains(&0) && fitting.contains(&(bound - 1)));
        let too_large: Vec<u64> = (0..200)
            .filter_map(|_| random.too_large(width))
            .map(u64::from)
            .collect();
        assert!(too_large.iter().all(|&value| value >= bound));
        assert_eq!(too_large.contains(&bound), width < 32);
    }
}

/// A fault of 8 goes before an assigned port, and that goes before the faults of 9 to 12.
#[test]
fn assigned_ports_beside_other_faults() {
    let mut random = Random::new(14);
    let mut met = [0; 13];
    for _ in 0..200 {
        let size = Size::random(&mut random);
        let table = design(&mut random, size);
        let assigns = table.commands.iter().any(|node| node.kind == 1);
        for other in [8, 9, 10, 11, 12] {
            let mut spoiled = faults::spoiled(&table, &[other], &mut random);
            let alone = reference::check(&spoiled.image()).number;
            faults::spoil(&mut spoiled, 16, &mut random);
            if assigns && alone == other {
                let both = reference::check(&spoiled.image()).number;
                assert_eq!(both, if other == 8 { 8 } else { 16 });
                met[other as usize] += 1;
            }
        }
    }
    assert!(met[8..].iter().all(|&met| met >= 10), "{met:?}");
}
