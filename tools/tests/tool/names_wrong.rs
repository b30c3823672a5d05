//! Each way in which a names file can be wrong behind its first line, with its words and its line.

use crate::common::{bytes, text};
use caisson_tools::assemble;
use caisson_tools::names_file::{summed, NamesFile, Shape, LARGEST};

pub const OTHER: &str =
    "1: is not of this table: it was made for another, or the table was changed; \
                     assemble it again or remove the names file";

/// What is said of a file for the table of this image.
pub fn said(file: &[u8], image: &[u8]) -> String {
    let read = NamesFile::read(file, image, Shape::of(image).as_ref());
    read.expect_err("a fault").to_string()
}

/// Two labels, a register and three states, two of which have parameters, one below the other.
const SOURCE: &str = "label low -> high\nlabel high\nregister timer : low = 0\n\
                      state root : low { fall }\nstate idle in root : low { goto group(timer) }\n\
                      state group(a : low..high) in root : low { fall }\n\
                      state rest in group : low { goto sub(a) }\n\
                      state sub(b : low..high) in group : low { goto rest }\n";

/// The lines of its names file between the first and the last.
const LINES: &str = "source two.caisson\nlabel 0 low 1\nlabel 1 high 2\nregister 0 timer 3\n\
                     state 0 root 4\nstate 1 idle 5\nstate 2 group 6\nstate 3 rest 7\n\
                     state 4 sub 8\nparameter 2 0 a 6\nparameter 4 0 b 8\n";

pub fn image() -> Vec<u8> {
    assemble(SOURCE).unwrap()
}

pub fn sum(image: &[u8]) -> String {
    let file = NamesFile::of_text("two.caisson", SOURCE).unwrap();
    file.text(image).split(' ').nth(4).unwrap().to_string()
}

pub fn first() -> String {
    let sum = sum(&image());
    format!("caisson names 2 sha256 {sum} labels 2 registers 1 states 5\n")
}

#[test]
fn the_whole_is_right() {
    let file = NamesFile::of_text("two.caisson", SOURCE).unwrap();
    let whole = summed(first() + LINES);
    assert_eq!(file.text(&image()), whole);
    let read = NamesFile::read(whole.as_bytes(), &image(), Shape::of(&image()).as_ref());
    assert_eq!(read, Ok(Some(file)));
}

/// A text in the place of another, the line that is at fault, and what is said of it.
#[test]
fn the_lines_behind_it() {
    let image = image();
    for (old, new, words) in [
        (
            "source two",
            "sauce two",
            "2: expected `source FILE`, found `sauce two.caisson`",
        ),
        (
            "two.caisson",
            "",
            "2: expected `source FILE`, found `source `",
        ),
        (
            "two.caisson",
            "a/b",
            "2: expected `source FILE`, found `source a/b`",
        ),
        (
            "two.caisson",
            "a b",
            "2: expected `source FILE`, found `source a b`",
        ),
        (
            "label 0 low 1",
            "label 1 low 1",
            "3: expected `label 0 NAME LINE`, found `label 1 low 1`",
        ),
        (
            "label 1 high",
            "label 2 high",
            "4: expected `label 1 NAME LINE`, found `label 2 high 2`",
        ),
        (
            "label 1 high",
            "label 01 high",
            "4: expected `label 1 NAME LINE`, found `label 01 high 2`",
        ),
        (
            "label 1 high 2\n",
            "",
            "4: expected `label 1 NAME LINE`, found `register 0 timer 3`",
        ),
        (
            "register 0",
            "port 0",
            "5: expected `register 0 NAME LINE`, found `port 0 timer 3`",
        ),
        (
            "timer 3",
            "timer",
            "5: expected `register 0 NAME LINE`, found `register 0 timer`",
        ),
        (
            "timer 3",
            "timer 0",
            "5: expected `register 0 NAME LINE`, found `register 0 timer 0`",
        ),
        (
            "timer 3",
            "timer +3",
            "5: expected `register 0 NAME LINE`, found `register 0 timer +3`",
        ),
        (
            "timer 3",
            "timer 3 4",
            "5: expected `register 0 NAME LINE`, found `register 0 timer 3 4`",
        ),
        (
            "timer 3",
            "timer  3",
            "5: expected `register 0 NAME LINE`, found `register 0 timer  3`",
        ),
        (
            "timer 3",
            "timer 3\r",
            "5: expected `register 0 NAME LINE`, found `register 0 timer 3\\r`",
        ),
        (
            "timer 3",
            " timer 3",
            "5: expected `register 0 NAME LINE`, found `register 0  timer 3`",
        ),
        ("0 timer", "0 9timer", "5: `9timer` is no name"),
        ("0 timer", "0 ti-mer", "5: `ti-mer` is no name"),
        ("0 timer", "0 tïmer", "5: `tïmer` is no name"),
        ("0 timer", "0 goto", "5: `goto` is no name"),
        ("1 high", "1 low", "4: `low` is the name of label 0 already"),
        (
            "3 rest",
            "3 idle",
            "9: `idle` is the name of state 1 already",
        ),
        (
            "state 3 rest 7\nstate 4 sub 8",
            "state 4 sub 8\nstate 3 rest 7",
            "9: expected `state 3 NAME LINE`, found `state 4 sub 8`",
        ),
        (
            "parameter 2 0",
            "parameter 3 0",
            "11: expected `parameter 2 0 NAME LINE`, found `parameter 3 0 a 6`",
        ),
        (
            "parameter 2 0",
            "parameter 2 1",
            "11: expected `parameter 2 0 NAME LINE`, found `parameter 2 1 a 6`",
        ),
        (
            "0 a 6",
            "0 timer 6",
            "11: `timer` is the name of register 0 already",
        ),
        (
            "0 a 6",
            "0 high 6",
            "11: `high` is the name of label 1 already",
        ),
        (
            "0 b 8",
            "0 a 8",
            "12: `a` is the name of a parameter of state 2 already",
        ),
        (
            "parameter 4 0 b 8\n",
            "",
            "12: the file ends here, and `parameter 4 0 NAME LINE` is missing",
        ),
        (" b 8\n", " b 8", "12: the last line has no line end"),
        (" b 8\n", " b 8\n\n", "13: expected `sum SHA256`, found ``"),
        (
            " b 8\n",
            " b 8\nparameter 4 1 c 8\n",
            "13: expected `sum SHA256`, found `parameter 4 1 c 8`",
        ),
        (
            LINES,
            "",
            "2: the file ends here, and `source FILE` is missing",
        ),
    ] {
        assert_eq!(LINES.matches(old).count(), 1, "{old}");
        let file = first() + &LINES.replace(old, new);
        assert_eq!(said(file.as_bytes(), &image), words, "{new}");
    }
    let whole = (first() + LINES).into_bytes();
    let at = whole.len() - 3;
    let broken = [&whole[..at], b"\xff", &whole[at..]].concat();
    assert_eq!(said(&broken, &image), "12: is not UTF-8");
}

/// A state may be called as a register or a label is, and a parameter as one that is not in scope, or as a state is.
#[test]
fn names_of_other_kinds_are_free() {
    let image = image();
    let shape = Shape::of(&image);
    for (old, new) in [
        ("4 sub", "4 timer"),
        ("3 rest", "3 low"),
        ("0 b 8", "0 group 8"),
    ] {
        let file = summed(first() + &LINES.replace(old, new));
        assert!(
            NamesFile::read(file.as_bytes(), &image, shape.as_ref()).is_ok(),
            "{new}"
        );
    }
}

/// Two names exchanged are names of the table still, and the sum alone tells.
#[test]
fn the_sum_of_the_file() {
    let image = image();
    let whole = summed(first() + LINES);
    let (lines, sum) = whole.split_once("sum ").unwrap();
    let changed = "13: the sum is not that of the lines above: the names file was changed; \
                   assemble it again or remove the names file";
    let exchanged = (lines.replace("0 low", "0 high")).replace("1 high 2", "1 low 2");
    assert_ne!(exchanged, lines);
    for (file, words) in [
        (format!("{exchanged}sum {sum}"), changed),
        (
            format!("{}sum {sum}", lines.replace("two.", "one.")),
            changed,
        ),
        (
            format!("{}sum {sum}", lines.replace("timer 3", "timer 4")),
            changed,
        ),
        (format!("{lines}sum {}\n", "0".repeat(64)), changed),
        (
            lines.to_string(),
            "13: the file ends here, and `sum SHA256` is missing",
        ),
        (
            format!("{lines}sum {}", sum.trim_end()),
            "13: the last line has no line end",
        ),
        (
            format!("{lines}sum 0\n"),
            "13: expected `sum SHA256`, found `sum 0`",
        ),
        (
            format!("{whole}\n"),
            "14: is a line too many: the table has no more to name",
        ),
    ] {
        assert_eq!(said(file.as_bytes(), &image), words);
    }
    let read = NamesFile::read(
        summed(exchanged).as_bytes(),
        &image,
        Shape::of(&image).as_ref(),
    );
    assert_eq!(read.unwrap().unwrap().kinds[0][0].name, "high");
}

/// One limit for the tool and the host. A line is as long as it takes.
#[test]
fn the_largest_file() {
    let image = image();
    let room = LARGEST - summed(first() + LINES).len();
    let shape = Shape::of(&image);
    for more in [room, room + 1] {
        let name = format!("0 {}timer 3", "t".repeat(more));
        let file = summed(first() + &LINES.replace("0 timer 3", &name));
        let read = NamesFile::read(file.as_bytes(), &image, shape.as_ref());
        assert_eq!(read.is_ok(), file.len() <= LARGEST);
    }
    let words = "1: is larger than 1048576 bytes, which no names file is";
    assert_eq!(said(&vec![b'c'; LARGEST + 1], &image), words);
}

/// All wires of a gate table have names of one kind, and numbers through all of them.
#[test]
fn gate_tables() {
    let image = bytes("designs/counter.table");
    let right = text("designs/counter.table.names");
    for (old, new, words) in [
        ("gate 3", "gate 1", "6: expected `gate 3 NAME LINE`, found `gate 1 no_count 11`"),
        ("flipflop 1", "flipflop 0", "4: expected `flipflop 1 NAME LINE`, found `flipflop 0 count 8`"),
        ("5 next", "5 reset", "8: `reset` is the name of input 0 already"),
        ("4 either", "4 nand", "7: `nand` is no name"),
        ("gates 4", "gates 5", "1: the table has `inputs 1 flipflops 1 gates 4`, and the file names `inputs 1 flipflops 1 gates 5`"),
    ] {
        assert_eq!(right.matches(old).count(), 1, "{old}");
        let file = right.replace(old, new);
        assert_eq!(said(file.as_bytes(), &image), words);
    }
    // A word of designs is a name here.
    let (lines, _) = right.split_once("sum ").unwrap();
    let file = summed(lines.replace("4 either", "4 goto"));
    assert!(NamesFile::read(file.as_bytes(), &image, Shape::of(&image).as_ref()).is_ok());
    assert_eq!(said(right.as_bytes(), &bytes("designs/lease.table")), OTHER);
}

/// Nothing in it can be named, and the sum alone is compared.
#[test]
fn a_table_that_cannot_be_cut() {
    let whole = first() + LINES;
    for cut in [
        &bytes("designs/cut_short.table"),
        &bytes("designs/gates_cut_short.table"),
    ] {
        assert!(Shape::of(cut).is_none());
        assert_eq!(said(whole.as_bytes(), cut), OTHER);
        let file = whole.replace(&sum(&image()), &sum(cut));
        assert_eq!(NamesFile::read(file.as_bytes(), cut, None), Ok(None));
    }
}
