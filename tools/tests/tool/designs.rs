//! The designs: each table is what the tool makes, and has the verdict that its text names.

use crate::common::{bytes, designs, text};
use crate::from_the_end::from_the_end;
use caisson_tools::{assemble, gates, library};

/// Tables that no text makes: the lease design with bytes changed, nodes in another order, and a gate table
/// without its last byte.
fn without_text() -> Vec<(&'static str, Vec<u8>, (u32, usize))> {
    let lease = bytes("designs/lease.table");
    let changed = |at: usize, byte: u8| {
        let mut image = lease.clone();
        image[at] = byte;
        image
    };
    vec![
        ("cut_short", lease[..234].to_vec(), (1, 0)),
        ("register_kind", changed(25, 2), (3, 0)),
        ("register_width", changed(37, 33), (3, 1)),
        ("command_kind", changed(83, 6), (5, 0)),
        ("expression_kind", changed(211, 12), (5, 1_027)),
        ("shared_command", changed(49, 0), (6, 0)),
        ("parameter_count", changed(78, 3), (19, 4)),
        (
            "reading_order",
            from_the_end(&bytes("designs/high_timer.table")).0,
            (10, 10),
        ),
        (
            "gates_cut_short",
            bytes("designs/counter.table")[..32].to_vec(),
            (25, 0),
        ),
    ]
}

/// "# Accepted." or "# Refused by 10 at place 4."
fn named_verdict(source: &str) -> Option<(u32, usize)> {
    let sentence = source
        .lines()
        .next()?
        .strip_prefix("# ")?
        .strip_suffix('.')?;
    if sentence == "Accepted" {
        return Some((0, 0));
    }
    let (number, place) = sentence
        .strip_prefix("Refused by ")?
        .split_once(" at place ")?;
    Some((number.parse().ok()?, place.parse().ok()?))
}

fn verdict(image: &[u8]) -> (u32, usize) {
    let answer = match gates::is_table(image) {
        true => library::gates_check(image),
        false => library::check(image),
    };
    (answer.number, answer.place)
}

#[test]
fn tables_are_what_the_tool_makes() {
    for name in designs("caisson") {
        let source = text(&format!("designs/{name}.caisson"));
        let image = assemble(&source).unwrap_or_else(|fault| panic!("{name}: {fault}"));
        assert!(image == bytes(&format!("designs/{name}.table")), "{name}");
        assert_eq!(Some(verdict(&image)), named_verdict(&source), "{name}");
    }
}

#[test]
fn tables_without_a_text_are_made_from_others() {
    for (name, image, expected) in without_text() {
        assert!(image == bytes(&format!("designs/{name}.table")), "{name}");
        assert_eq!(verdict(&image), expected, "{name}");
    }
}

/// Each refusal of an image or of a gate table has a design, and every table comes from a text or a change.
#[test]
fn designs_are_complete() {
    let mut known = designs("caisson");
    known.extend(
        without_text()
            .into_iter()
            .map(|(name, ..)| name.to_string()),
    );
    known.sort();
    assert_eq!(designs("table"), known);
    let mut met: Vec<u32> = known
        .iter()
        .map(|name| verdict(&bytes(&format!("designs/{name}.table"))).0)
        .collect();
    met.sort();
    met.dedup();
    assert_eq!(met, (0..=12).chain([16, 19, 25, 26]).collect::<Vec<u32>>());
}

/// The README lists every table with its verdict.
#[test]
fn readme_names_the_verdicts() {
    let readme = text("designs/README.md");
    for name in designs("table") {
        let (number, place) = verdict(&bytes(&format!("designs/{name}.table")));
        let words = match number {
            0 => "accepted".to_string(),
            _ => format!("{number} at {place}"),
        };
        let row = format!("| `{name}` | {words} |");
        assert!(readme.contains(&row), "no row begins with {row}");
    }
}
