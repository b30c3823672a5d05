//! Gate tables as text: what is numbered how, what each fault says, and tables that come back.

use crate::common::{bytes, designs, text};
use caisson_tests::designs::gates as known;
use caisson_tests::generate::faults;
use caisson_tests::generate::gates::{gate_counts, gate_table, LARGEST_GATES};
use caisson_tests::generate::random::Random;
use caisson_tools::{assemble, gates};

fn printed(image: &[u8]) -> String {
    gates::print(&gates::read(image).unwrap())
}

fn fault(source: &str) -> String {
    assemble(source).unwrap_err().to_string()
}

#[test]
fn texts_give_the_known_tables() {
    let table = |name: &str| assemble(&text(&format!("designs/{name}.caisson"))).unwrap();
    assert_eq!(table("counter"), known::counter().bytes());
    assert_eq!(table("multiplexer"), known::multiplexer([0, 0, 1]).bytes());
}

/// Inputs, flip-flops and gates, each in the order of the text, however they are mixed.
#[test]
fn wires_are_numbered_by_kind() {
    let mixed = "# first a comment\n gates gate g = nand b q flipflop q = g start 1 trusted\n\
                 input a trusted gate h = nand g g input b untrusted";
    let sorted = "gates\ninput a trusted\ninput b untrusted\nflipflop q = g start 1 trusted\n\
                  gate g = nand b q\ngate h = nand g g\n";
    let image = assemble(mixed).unwrap();
    assert_eq!(image, assemble(sorted).unwrap());
    let expected = [
        [12, 0, 2, 0, 14, 0, 4, 0, 18, 0, 8, 0].as_slice(),
        &[0, 1],
        &[3, 0, 1, 0],
        &[1, 0, 2, 0],
        &[3, 0, 3, 0],
    ];
    assert_eq!(image, expected.concat());
    assert_eq!(
        printed(&image),
        "gates\n\ninput i0 trusted\ninput i1 untrusted\n\nflipflop f0 = g0 start 1 trusted\n\n\
         gate g0 = nand i1 f0\ngate g1 = nand g0 g0\n"
    );
}

/// A table of nothing, and kinds that are left out.
#[test]
fn every_kind_may_be_missing() {
    for source in [
        "gates\n",
        "gates\n\ninput i0 untrusted\n",
        "gates\n\nflipflop f0 = f0 start 0 trusted\n",
        "gates\n\ninput i0 trusted\n\ngate g0 = nand i0 i0\n",
    ] {
        assert_eq!(printed(&assemble(source).unwrap()), source);
    }
}

/// The words of designs are names in a gate table, and the other way round.
#[test]
fn each_form_has_its_own_words() {
    let label = "gates input label trusted gate state = nand label label";
    assert_eq!(assemble(label).unwrap().len(), 17);
    let gate = "label gate port nand : gate = 0 state gates : gate { fall }";
    assert!(assemble(gate).is_ok());
}

#[test]
fn faults_say_what_was_expected() {
    for (source, message) in [
        ("gates gates", "line 1, column 7: expected `input`, `flipflop` or `gate`, found `gates`"),
        ("gates\nlabel a", "line 2, column 1: expected `input`, `flipflop` or `gate`, found `label`"),
        (
            "input a trusted",
            "line 1, column 1: expected `label`, `register`, `port` or `state`, or `gates` of a gate table, found `input`",
        ),
        ("gates input nand trusted", "line 1, column 13: expected the input's name, found `nand`"),
        ("gates input a", "line 1, column 14: expected `trusted` or `untrusted`, found the end of the text"),
        ("gates input a : trusted", "line 1, column 15: expected `trusted` or `untrusted`, found `:`"),
        ("gates input a [mark 2]", "line 1, column 15: expected a name, a number or a symbol, found `[`"),
        (
            "gates input a trusted\ninput a trusted",
            "line 2, column 7: expected a name that no wire above has, found `a`",
        ),
        // The later one in the text, though a flip-flop has a lower number than a gate.
        (
            "gates gate a = nand a a flipflop a = a start 0 trusted",
            "line 1, column 34: expected a name that no wire above has, found `a`",
        ),
        ("gates flipflop q start", "line 1, column 18: expected `=` and the wire that it takes next, found `start`"),
        (
            "gates flipflop q = 3 start 0 trusted",
            "line 1, column 20: expected the name of an input, a flip-flop or a gate, found `3`",
        ),
        ("gates flipflop q = q = 0", "line 1, column 22: expected `start` and the value it starts with, found `=`"),
        ("gates flipflop q = q start 2 trusted", "line 1, column 28: expected a value, 0 or 1, found `2`"),
        ("gates flipflop q = q start -1 trusted", "line 1, column 28: expected a value, 0 or 1, found `-`"),
        ("gates flipflop q = q start 0", "line 1, column 29: expected `trusted` or `untrusted`, found the end of the text"),
        ("gates flipflop q = r start 0 trusted", "line 1, column 20: expected the name of a wire, found `r`"),
        ("gates gate g", "line 1, column 13: expected `= nand` and two wires, found the end of the text"),
        ("gates gate g = and g g", "line 1, column 16: expected `nand` and two wires, found `and`"),
        (
            "gates gate g = nand g",
            "line 1, column 22: expected the name of an input, a flip-flop or a gate, found the end of the text",
        ),
        ("gates gate g = nand g h", "line 1, column 23: expected the name of a wire, found `h`"),
    ] {
        assert_eq!(fault(source), message, "{source}");
    }
}

/// Refusal 25 has no place, so the one that is too many is found in the text.
#[test]
fn counts_end_at_their_limits() {
    type Line = fn(usize) -> String;
    let many = |count: usize, line: Line| {
        let lines: String = (0..count).map(line).collect();
        assemble(&format!("gates\ninput a trusted\n{lines}"))
    };
    let input: Line = |n| format!("input a{n} trusted\n");
    let flipflop: Line = |n| format!("flipflop f{n} = a start 0 trusted\n");
    let gate: Line = |n| format!("gate g{n} = nand a a\n");
    for (line, most, words) in [
        (input, 255, "256 inputs"),
        (flipflop, 256, "256 flip-flops"),
        (gate, 4_096, "4096 gates"),
    ] {
        assert!(many(most, line).is_ok(), "{words}");
        let message = many(most + 1, line).unwrap_err().to_string();
        let place = format!("line {}, column 1", most + 3);
        assert_eq!(
            message,
            format!("{place}: expected at most {words}, found one more")
        );
    }
}

#[test]
fn tables_come_back() {
    let folder = designs("caisson").into_iter();
    let folder = folder.map(|name| bytes(&format!("designs/{name}.table")));
    let mut tables: Vec<Vec<u8>> = folder.filter(|image| gates::is_table(image)).collect();
    assert_eq!(tables.len(), 3);
    let mut random = Random::new(41);
    tables.push(gate_table(&mut random, LARGEST_GATES).bytes());
    for _ in 0..100 {
        let counts = gate_counts(&mut random);
        tables.push(gate_table(&mut random, counts).bytes());
    }
    for image in tables {
        assert!(assemble(&printed(&image)).unwrap() == image);
    }
}

/// What no text can say stands in brackets; every other table comes back, also one that is refused.
#[test]
fn faults_are_printed() {
    let mut random = Random::new(43);
    let (mut refused, mut bracketed) = (0, 0);
    for _ in 0..400 {
        let counts = gate_counts(&mut random);
        let mut table = gate_table(&mut random, counts);
        faults::spoil_gate_record(&mut table, &mut random);
        let image = table.bytes();
        let text = printed(&image);
        match assemble(&text) {
            Ok(again) => assert!(again == image),
            Err(fault) => {
                assert!(text.contains('['), "{fault}");
                bracketed += 1;
            }
        }
        refused += usize::from(caisson_tools::library::gates_check(&image).number != 0);
    }
    assert!(
        refused > bracketed && bracketed > 100,
        "{refused} {bracketed}"
    );
}

#[test]
fn fields_out_of_range_are_printed_in_brackets() {
    let mut table = known::counter();
    table.inputs[0] = 2;
    table.flipflops[0].next = 6;
    table.flipflops[0].value = 3;
    table.flipflops[0].mark = 255;
    table.gates[3] = [65_535, 5];
    assert_eq!(
        printed(&table.bytes()),
        "gates\n\ninput i0 [mark 2]\n\nflipflop f0 = [wire 6] start [value 3] [mark 255]\n\n\
         gate g0 = nand i0 i0\ngate g1 = nand f0 f0\ngate g2 = nand g0 g1\n\
         gate g3 = nand [wire 65535] g3\n"
    );
}
