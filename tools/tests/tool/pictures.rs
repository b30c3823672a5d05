//! The pictures of the documents: that they are of the designs as they are.

use crate::common::{path, text};
use caisson_tools::draw::draw_text;
use std::fs;
use std::process::Command;

/// The names of the pictures, sorted.
fn pictures() -> Vec<String> {
    let files = fs::read_dir(path("docs/pictures")).unwrap();
    let paths = files.map(|file| file.unwrap().path());
    let mut names: Vec<String> = paths
        .filter(|path| path.extension().is_some_and(|found| found == "dot"))
        .map(|path| path.file_stem().unwrap().to_string_lossy().into_owned())
        .collect();
    names.sort();
    names
}

/// `docs/pictures/draw` makes them anew.
#[test]
fn pictures_are_what_the_tool_draws() {
    let names = pictures();
    assert_eq!(
        names,
        ["dosing", "duty_pumps", "lease", "tank", "two_groups"]
    );
    for name in names {
        let design = text(&format!("designs/{name}.caisson"));
        let graph = draw_text(&design).unwrap().graph;
        assert!(
            text(&format!("docs/pictures/{name}.dot")) == graph,
            "{name}"
        );
    }
}

#[test]
fn pictures_are_made_from_these_graphs() {
    for name in pictures() {
        let file = path(&format!("docs/pictures/{name}.dot"));
        let sum = Command::new("sha256sum").arg(file).output().unwrap().stdout;
        let sum = String::from_utf8(sum).unwrap();
        let sum = sum.split(' ').next().unwrap();
        assert_eq!(sum.len(), 64);
        let picture = text(&format!("docs/pictures/{name}.svg"));
        let comment = format!("<!-- made from {name}.dot, sha256 {sum} -->\n");
        assert!(picture.contains(&comment), "{name}: docs/pictures/draw");
        assert!(!picture.contains("/tmp/") && !picture.contains("/home/"));
    }
}

/// The documents show them.
#[test]
fn pictures_are_shown() {
    let readme = text("designs/README.md");
    for name in pictures() {
        let shown = format!("](../docs/pictures/{name}.svg)");
        assert!(readme.contains(&shown), "{name}");
    }
    assert!(text("README.md").contains("](docs/pictures/two_groups.svg)"));
}
