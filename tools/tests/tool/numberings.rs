//! One design under several numberings, and the shelf that `tests/shelf` sorts: each of its tables is made here
//! from a table of `designs`.

use crate::common::{bytes, path};
use crate::from_the_end::from_the_end;
use caisson_tools::filing::{file_table, Order};
use caisson_tools::{library, read, Table};
use std::fs;

/// The numbers of the nodes, each behind its parts: of those whose parts have theirs, the one that is chosen is next.
/// The choice is given how many there are.
fn order(parts: &[Vec<u16>], choose: &mut dyn FnMut(usize) -> usize) -> Vec<u16> {
    let mut owners = vec![None; parts.len()];
    for (node, parts) in parts.iter().enumerate() {
        for &part in parts {
            owners[usize::from(part)] = Some(node);
        }
    }
    let mut waiting: Vec<usize> = parts.iter().map(Vec::len).collect();
    let leaves = (0..parts.len()).filter(|&node| waiting[node] == 0);
    let mut ready: Vec<usize> = leaves.collect();
    let mut order = Vec::new();
    while !ready.is_empty() {
        let node = ready.remove(choose(ready.len()));
        order.push(node as u16);
        if let Some(owner) = owners[node] {
            waiting[owner] -= 1;
            if waiting[owner] == 0 {
                ready.push(owner);
            }
        }
    }
    order
}

/// The same design under the numbering that the choices give.
pub fn renumbered(image: &[u8], choose: &mut dyn FnMut(usize) -> usize) -> Vec<u8> {
    let table = read(image).unwrap();
    let commands: Vec<Vec<u16>> = (table.commands.iter())
        .map(|node| match node.kind {
            2 => vec![node.a, node.b],
            5 => vec![node.b, node.c],
            _ => vec![],
        })
        .collect();
    let expressions: Vec<Vec<u16>> = (table.expressions.iter())
        .map(|node| match node.kind {
            0 | 1 => vec![],
            _ => vec![node.a, node.b],
        })
        .collect();
    let order = Order {
        commands: order(&commands, choose),
        expressions: order(&expressions, choose),
    };
    let new: Table = order.apply(&table);
    new.image()
}

/// What has no parts before what has some.
pub fn leaves_first(image: &[u8]) -> Vec<u8> {
    renumbered(image, &mut |_| 0)
}

/// The shelf: names and bytes. `text` is the numbering of the assembler.
fn shelf() -> Vec<(String, Vec<u8>)> {
    let mut shelf = Vec::new();
    for design in ["dosing", "lease", "two_groups", "two_groups_edited"] {
        let image = bytes(&format!("designs/{design}.table"));
        for (numbering, image) in [
            ("end", from_the_end(&image).0),
            ("leaves", leaves_first(&image)),
            ("text", image),
        ] {
            shelf.push((format!("{design}_{numbering}.table"), image));
        }
    }
    let filed = file_table(&bytes("designs/dosing.table")).image;
    shelf.push(("dosing_filed.table".to_string(), filed));
    shelf.sort();
    shelf
}

/// No two of its tables have the same bytes, and all are accepted.
#[test]
fn the_shelf_is_what_is_made() {
    let made = shelf();
    for (at, (name, image)) in made.iter().enumerate() {
        assert_eq!(library::check(image).number, 0, "{name}");
        assert!(*image == bytes(&format!("designs/shelf/{name}")), "{name}");
        assert!(made[..at].iter().all(|(_, other)| other != image), "{name}");
    }
    let files = fs::read_dir(path("designs/shelf")).unwrap();
    let names = files.map(|file| file.unwrap().file_name().into_string().unwrap());
    let mut names: Vec<String> = names.filter(|name| name.ends_with(".table")).collect();
    names.sort();
    assert!(made.iter().map(|(name, _)| name).eq(&names), "{names:?}");
}

/// After a change of one of its designs: `cargo test --offline -- --ignored write_the_shelf`.
#[test]
#[ignore = "writes the shelf"]
fn write_the_shelf() {
    for (name, image) in shelf() {
        fs::write(path(&format!("designs/shelf/{name}")), image).unwrap();
    }
}
