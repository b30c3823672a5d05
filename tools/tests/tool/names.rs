//! Names in the place of numbers: a table with its names file is printed and explained as its text is.

use crate::common::{bytes, designs, designs_alone, path, text};
use caisson_tests::generate::random::Random;
use caisson_tests::generate::{any_design, Size};
use caisson_tools::gates::{self, WireNames};
use caisson_tools::names_file::{Entry, Family, NamesFile, Shape};
use caisson_tools::{assemble, assemble_named, assemble_placed, explain, library};
use caisson_tools::{print, print_named, read, Names};
use std::fs;

/// The names file of a text, read again for its table.
fn names_of(image: &[u8], source: &str) -> NamesFile {
    let file = NamesFile::of_text("text.caisson", source).unwrap();
    let written = file.text(image);
    let shape = Shape::of(image);
    let again = NamesFile::read(written.as_bytes(), image, shape.as_ref()).unwrap();
    assert_eq!(again.as_ref(), Some(&file), "{written}");
    file
}

/// Without the lines, which are those of a layout.
fn names_alone(file: &NamesFile) -> (Family, Vec<Vec<String>>) {
    let lists = file.kinds.iter().chain(&file.parameters);
    let names = |list: &Vec<Entry>| list.iter().map(|entry| entry.name.clone()).collect();
    (file.family, lists.map(names).collect())
}

fn printed(image: &[u8], file: &NamesFile) -> String {
    match file.family {
        Family::Design => print_named(&read(image).unwrap(), &Names::of_file(file)),
        Family::Gates => {
            let table = gates::read(image).unwrap();
            gates::print_named(&table, &WireNames::of_file(file))
        }
    }
}

/// Printed and assembled again, the table and its names are the same.
fn round_trips(image: &[u8], file: &NamesFile) {
    let text = printed(image, file);
    assert!(assemble(&text).unwrap() == image, "{text}");
    let again = names_of(image, &text);
    assert_eq!(names_alone(&again), names_alone(file), "{text}");
}

#[test]
fn the_designs_round_trip() {
    let mut gate_tables = 0;
    for name in designs("caisson") {
        let source = text(&format!("designs/{name}.caisson"));
        let image = bytes(&format!("designs/{name}.table"));
        let file = names_of(&image, &source);
        round_trips(&image, &file);
        gate_tables += usize::from(file.family == Family::Gates);
    }
    assert_eq!(gate_tables, 3);
}

/// Under names that the tool would not think of, parameters in scope of each other among them.
#[test]
fn random_designs_round_trip() {
    let mut random = Random::new(271);
    let mut with_parameters = 0;
    for _ in 0..200 {
        let size = Size::random(&mut random);
        let table = read(&any_design(&mut random, size).image()).unwrap();
        let image = assemble(&print(&table)).unwrap();
        let file = renamed(&names_of(&image, &print(&table)), &mut random);
        round_trips(&image, &file);
        with_parameters += usize::from(file.parameters.iter().any(|own| !own.is_empty()));
    }
    assert!(with_parameters > 20, "{with_parameters}");
}

/// States are called as registers are.
fn renamed(file: &NamesFile, random: &mut Random) -> NamesFile {
    let mut file = file.clone();
    let noise = random.below(1_000);
    let lists = file.kinds.iter_mut().chain(&mut file.parameters);
    for (list, entries) in lists.enumerate() {
        for (number, entry) in entries.iter_mut().enumerate() {
            entry.name = match list {
                0 => format!("L{number}_{noise}"),
                1 | 2 => format!("_{number}_{noise}"),
                _ => format!("p_{list}_{number}_{noise}"),
            };
        }
    }
    file
}

/// By the names of a text, but for the line of a label, register or state that a table has no text for.
#[test]
fn a_table_is_explained_as_its_text_is() {
    let mut lines = 0;
    for name in designs_alone() {
        let image = bytes(&format!("designs/{name}.table"));
        let source = text(&format!("designs/{name}.caisson"));
        let answer = library::check(&image);
        let of_text = assemble_placed(&source).unwrap().1.into_names();
        let expected = explain::explain_named(&image, Some(&of_text), answer);
        let of_file = Names::of_file(&names_of(&image, &source));
        let shown = explain::explain_named(&image, Some(&of_file), answer);
        let (unlined, found) = without_lines(&shown, &source);
        assert_eq!(unlined, expected, "{name}");
        assert_eq!(found > 0, answer.number != 0, "{name}: {shown}");
        lines += found;
    }
    assert!(lines > 20, "{lines}");
}

/// Takes `, line N of text.caisson` out, where line N is the one that declares what is shown next.
fn without_lines(shown: &str, source: &str) -> (String, usize) {
    let mut pieces = shown.split(" of text.caisson");
    let mut whole = pieces.next().unwrap().to_string();
    let mut found = 0;
    for piece in pieces {
        let (before, line) = whole.rsplit_once(", line ").unwrap();
        let declared = source.lines().nth(line.parse::<usize>().unwrap() - 1);
        assert_eq!(head(declared.unwrap()), head(&piece[1..]), "{shown}");
        whole = format!("{before}{piece}");
        found += 1;
    }
    (whole, found)
}

/// The first two words of a declaration: what it declares, and the name.
fn head(declaration: &str) -> Vec<&str> {
    let words = declaration.split([' ', '\n', '(']);
    words.filter(|word| !word.is_empty()).take(2).collect()
}

#[test]
fn a_gate_table_is_explained_by_name() {
    let source = text("designs/latch.caisson");
    let image = bytes("designs/latch.table");
    let names = WireNames::of_file(&names_of(&image, &source));
    let answer = library::gates_check(&image);
    let shown = gates::explain::explain_named(&image, Some(&names), answer);
    let end = "Wire 3, a gate, line 11 of text.caisson (bytes 0 0 4 0):\n    \
               gate kept = nand set other\n\nBecause:\n    \
               its second wire 4, other, is not lower than its own, 3\n";
    assert!(shown.ends_with(end), "{shown}");
}

/// What is not there keeps its number, whatever the rest is called.
#[test]
fn what_is_not_there_has_no_name() {
    let source = "label low\nregister timer : low = 0\nstate root : low { timer := 1; fall }\n\
                  state open in root : low { goto open }\n";
    let file = NamesFile::of_text("text.caisson", source).unwrap();
    let mut table = read(&assemble(source).unwrap()).unwrap();
    table.rows[0] = 2;
    table.registers[0].label = 9;
    table.states[1].parent = 7;
    table.states[1].label = 17;
    table.commands[0].which = 3;
    let names = Names::of_file(&file);
    assert_eq!(
        print_named(&table, &names),
        "label low -> [not low], [label 1]\n\nregister timer : [label 9] = 0\n\n\
         state root : low { [register 3] := 1; fall }\n\
         state open in [state 7] : [parameter 1] { goto open }\n"
    );
}

/// Those that documents and the host's examples use, and no others: each is what the tool makes of its text.
#[test]
fn the_stored_ones_are_in_step() {
    let stored = designs("names");
    assert_eq!(
        stored,
        [
            "counter.table",
            "lease.table",
            "slot.table",
            "tank.table",
            "two_groups.table",
            "two_groups_shared.table"
        ]
    );
    for table in stored {
        let source = format!("{}.caisson", table.strip_suffix(".table").unwrap());
        let (image, names) = assemble_named(&source, &text(&format!("designs/{source}"))).unwrap();
        assert!(image == bytes(&format!("designs/{table}")));
        let file = path(&format!("designs/{table}.names"));
        assert_eq!(fs::read_to_string(file).unwrap(), names);
    }
    let page = text("docs/FORMAT.md");
    for (mark, table) in [("names", "slot"), ("gates names", "counter")] {
        let file = text(&format!("designs/{table}.table.names"));
        let shown = format!("<!-- {mark} -->\n```\n{file}```\n<!-- end of {mark} -->\n");
        assert!(page.contains(&shown), "docs/FORMAT.md: {table}");
    }
}
