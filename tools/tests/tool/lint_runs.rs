//! That warnings are true: pruning drops the states that they name, and runs go as they say.

use crate::common::{bytes, designs_alone, text};
use caisson_tests::generate::random::Random;
use caisson_tests::generate::{design, Size};
use caisson_tests::reference::listing;
use caisson_tools::lint::{lint_table, Linted};
use caisson_tools::prune::prune_table;
use caisson_tools::read;

/// The states that are said to be never reached, by their numbers.
fn unreached(image: &[u8]) -> Vec<usize> {
    let Linted::Warnings(words) = lint_table("x", image) else {
        panic!("refused");
    };
    let lines = words
        .lines()
        .filter(|line| line.contains("` is never reached: "));
    let numbers = lines.map(|line| {
        let state = line.strip_prefix("x: state s").unwrap();
        state.split(':').next().unwrap().parse().unwrap()
    });
    numbers.collect()
}

/// The states that pruning drops.
fn dropped(image: &[u8]) -> Vec<usize> {
    let words = prune_table(image).words.unwrap();
    let lines = words
        .lines()
        .filter_map(|line| line.strip_prefix("    state "));
    let lines = lines.filter(|line| line.contains(" goes: "));
    let numbers = lines.map(|line| line.split(' ').next().unwrap().parse().unwrap());
    numbers.collect()
}

#[test]
fn lint_and_prune_agree() {
    let mut with_some = 0;
    for name in designs_alone() {
        let image = bytes(&format!("designs/{name}.table"));
        if text(&format!("designs/{name}.caisson")).starts_with("# Accepted.") {
            assert_eq!(unreached(&image), dropped(&image), "{name}");
            with_some += usize::from(!dropped(&image).is_empty());
        }
    }
    assert_eq!(with_some, 3);
}

/// What is said of random designs is what the independent implementation lists: a state that is never reached is in
/// no walk, one that is never left lets no other of its group run once it has, a register that is never assigned
/// keeps its value.
#[test]
fn random_designs_run_as_said() {
    let mut random = Random::new(27);
    let mut said = [0; 3];
    for _ in 0..400 {
        let size = Size::random(&mut random);
        let image = design(&mut random, size).image();
        let Linted::Warnings(words) = lint_table("x", &image) else {
            panic!("refused");
        };
        assert_eq!(unreached(&image), dropped(&image));
        let lines = String::from_utf8(listing(&[&[40, 0], &image[..]].concat())).unwrap();
        let cycles: Vec<(Vec<usize>, Vec<u32>)> = lines.lines().skip(1).map(cycle).collect();
        assert_eq!(cycles.len(), 40);
        let table = read(&image).unwrap();
        for line in words.lines() {
            let (record, words) = line.strip_prefix("x: ").unwrap().split_once(": ").unwrap();
            let number = || {
                record.split_once([' ']).unwrap().1[1..]
                    .parse::<usize>()
                    .unwrap()
            };
            if words.contains(" is never reached: ") {
                assert!(cycles.iter().all(|(walk, _)| !walk.contains(&number())));
                said[0] += 1;
            } else if words.contains(" is never left: ") {
                let parent = table.states[number()].parent;
                let runs = cycles
                    .iter()
                    .map(|(walk, _)| walk)
                    .skip_while(|walk| !walk.contains(&number()));
                let beside = |state: &usize| {
                    *state != 0 && *state != number() && table.states[*state].parent == parent
                };
                assert!(runs.flatten().all(|state| !beside(state)), "{line}");
                said[1] += 1;
            } else if words.contains(" it always has its reset value ") {
                let reset = table.registers[number()].reset;
                assert!(cycles
                    .iter()
                    .all(|(_, registers)| registers[number()] == reset));
                said[2] += 1;
            }
        }
    }
    assert!(said.iter().all(|&count| count > 20), "{said:?}");
}

/// The walk and the registers of a line of the listing.
fn cycle(line: &str) -> (Vec<usize>, Vec<u32>) {
    let [_, walk, registers] = line.split(';').collect::<Vec<_>>()[..] else {
        panic!("{line}");
    };
    let walk = walk.split(' ').map(|state| state.parse().unwrap());
    let registers = registers.split(' ').filter(|value| !value.is_empty());
    let registers = registers.map(|value| value.parse().unwrap());
    (walk.collect(), registers.collect())
}
