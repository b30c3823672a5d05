//! The images that are timed.

use super::chains::random_chain;
use crate::compare::passes::Passes;
use crate::designs::{going_down, going_round, largest, lease, longest_chain};
use crate::generate;
use crate::generate::faults::leaking;
use crate::generate::random::Random;
use crate::generate::{design, lowered, Size};
use crate::reference;
use crate::reference::image::Image;
use crate::reference::labels::Labels;
use crate::reference::limits::{MOST_REGISTERS, MOST_STATES};
use crate::table::Table;

/// So many images of one size, taken in turns: a processor that meets one image again and
/// again learns its branches by heart, a small one's better than a large one's.
const IMAGES: u64 = 16;

pub struct Subject {
    pub name: &'static str,
    pub images: Vec<Vec<u8>>,
}

impl Subject {
    /// All images of a subject have about this length.
    pub fn bytes(&self) -> usize {
        self.images.iter().map(Vec::len).sum::<usize>() / self.images.len()
    }
}

pub fn accepted(table: &Table) -> Vec<u8> {
    let image = table.image();
    assert_eq!(reference::check(&image).number, 0);
    image
}

/// Refused by the last of the image checks: some faults of flow bring one of another kind with them.
fn refused_for_flow(image: &[u8]) -> bool {
    (10..=12).contains(&reference::check(image).number)
}

/// Designs of the largest size with two parameters in every state that may take some.
pub fn full_of_parameters() -> Vec<Table> {
    (1..=IMAGES)
        .map(|seed| generate::full_of_parameters(&mut Random::new(seed), Size::LARGEST))
        .collect()
}

/// The lease design, then designs of about a quarter, a half and all of the largest image, the last with
/// faults of flow, and as large ones full of parameters.
pub fn by_size() -> Vec<Subject> {
    let of_size = |name, part| Subject {
        name,
        images: (1..=IMAGES)
            .map(|seed| {
                let size = Size::part_of_largest(part, 4);
                accepted(&design(&mut Random::new(seed), size))
            })
            .collect(),
    };
    vec![
        Subject {
            name: "lease",
            images: vec![accepted(&lease())],
        },
        of_size("quarter", 1),
        of_size("half", 2),
        of_size("largest", 4),
        Subject {
            name: "leaking",
            images: (1..)
                .map(|seed| {
                    let mut random = Random::new(seed);
                    let table = design(&mut random, Size::part_of_largest(4, 4));
                    leaking(&table, &mut random).image()
                })
                .filter(|image| refused_for_flow(image))
                .take(IMAGES as usize)
                .collect(),
        },
        Subject {
            name: "parameters",
            images: full_of_parameters().iter().map(accepted).collect(),
        },
    ]
}

/// Designs of the largest size that are accepted, the same with lower labels of their inner registers, some
/// that have no accepted raising, the one that takes the most passes, and random trees with almost as many.
pub fn for_raising() -> Vec<Subject> {
    let largest = |change: fn(&Table, &mut Random) -> Table| {
        (1..).map(move |seed| {
            let mut random = Random::new(seed);
            let table = design(&mut random, Size::LARGEST);
            change(&table, &mut random).image()
        })
    };
    let answers = |image: &Vec<u8>| reference::raise(image, &mut vec![0; image.len()]).number;
    let subject = |name, images: &mut dyn Iterator<Item = Vec<u8>>| Subject {
        name,
        images: images.take(IMAGES as usize).collect(),
    };
    vec![
        subject("accepted", &mut largest(|table, _| table.clone())),
        subject("lowered", &mut largest(lowered)),
        subject(
            "hopeless",
            &mut largest(leaking).filter(|image| answers(image) == 18),
        ),
        Subject {
            name: "chain",
            images: vec![longest_chain().image()],
        },
        subject(
            "chains",
            &mut (1..).map(random_chain).filter_map(raised_late),
        ),
    ]
}

/// Designs of a quarter and a half of the largest's states and of all of them, every one reached; as large ones
/// with half of their states spare, and some whose states are reached from the highest number down.
pub fn for_pruning() -> Vec<Subject> {
    let largest = largest();
    let first = |part| going_round(&largest, MOST_STATES * part / 4 - 1);
    vec![
        numbered("quarter", &pruned(&first(1))),
        numbered("half", &pruned(&first(2))),
        numbered("largest", &largest),
        numbered("half spare", &first(2)),
        numbered("downwards", &going_down(&largest)),
    ]
}

/// Designs of a quarter and a half of the largest's states and of all of them, the largest as its form, and one of
/// the largest size in random trees with parameters.
pub fn for_filing() -> Vec<Subject> {
    let largest = largest();
    let first = |part| pruned(&going_round(&largest, MOST_STATES * part / 4 - 1));
    let in_form = largest_form(&largest);
    vec![
        numbered("quarter", &first(1)),
        numbered("half", &first(2)),
        numbered("largest", &largest),
        Subject {
            name: "its form",
            images: vec![in_form],
        },
        numbered("parameters", &full_of_parameters()[0]),
    ]
}

/// One design under several numberings.
fn numbered(name: &'static str, table: &Table) -> Subject {
    Subject {
        name,
        images: (1..=IMAGES)
            .map(|seed| {
                let mut table = table.clone();
                table.renumber(&mut Random::new(seed));
                accepted(&table)
            })
            .collect(),
    }
}

fn largest_form(largest: &Table) -> Vec<u8> {
    let image = largest.image();
    let mut form = vec![0; image.len()];
    reference::file(&image, &mut form);
    form
}

/// The design without the states that are not reached.
fn pruned(table: &Table) -> Table {
    let image = table.image();
    let mut out = vec![0; image.len()];
    let count = reference::prune(&image, &mut out).count;
    Table::open(&out[..count]).expect("an accepted image")
}

/// Its image, if it has an accepted raising: in some random designs too few assignments read a register.
fn raised_late(table: Table) -> Option<Vec<u8>> {
    let image = table.image();
    let answer = reference::raise(&image, &mut vec![0; image.len()]);
    (answer.number == 0 && passes(&image) == MOST_REGISTERS - 1).then_some(image)
}

/// So many passes in reading order raise some label.
pub fn passes(bytes: &[u8]) -> usize {
    let image = Image::open(bytes).expect("an image with good sections");
    let labels = Labels::judge(&image).expect("a lattice");
    let own = image.registers().map(|register| register.label).collect();
    Passes::of(&image, &labels, own).0
}
