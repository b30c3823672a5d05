//! Tables of formats 1 and 2 made into tables of format 3. Format 1 had register records of 6 bytes, both
//! had state records of 4 bytes.

use crate::common::{bytes, designs};
use caisson_tests::generate::random::Random;
use caisson_tests::generate::{any_design, Size};
use caisson_tools::old::{advice, form, upgrade, Form};
use caisson_tools::{assemble, explain, library, print, read, Table};

/// The table as an old format had it, without what that did not have.
fn in_format(format: u8, table: &Table) -> Vec<u8> {
    let image = table.image();
    let kept = [2, if format == 1 { 6 } else { 7 }, 4, 8, 8];
    let mut directory = Vec::new();
    let mut sections = Vec::new();
    for (section, (today, kept)) in [2, 7, 9, 8, 8].into_iter().zip(kept).enumerate() {
        let field = |at: usize| usize::from(u16::from_le_bytes([image[at], image[at + 1]]));
        let (offset, length) = (field(4 * section), field(4 * section + 2));
        let records = image[offset..offset + length].chunks_exact(today);
        let old: Vec<u8> = records.flat_map(|one| &one[..kept]).copied().collect();
        directory.extend((20 + sections.len() as u16).to_le_bytes());
        directory.extend((old.len() as u16).to_le_bytes());
        sections.extend(old);
    }
    [directory, sections].concat()
}

/// Labels 0 and 1, no commands, and sections of registers and states with these bytes.
fn with_records(registers: &[u8], states: &[u8]) -> Vec<u8> {
    let (length, states_length) = (registers.len() as u16, states.len() as u16);
    let end = 24 + length + states_length;
    let pairs = [
        20,
        4,
        24,
        length,
        24 + length,
        states_length,
        end,
        0,
        end,
        0,
    ];
    let mut image: Vec<u8> = pairs.into_iter().flat_map(u16::to_le_bytes).collect();
    image.extend([3, 0, 2, 0]);
    image.extend(registers);
    image.extend(states);
    image
}

/// A design with one state, which has command 0, and these registers.
fn declared(count: usize, width: &str) -> Table {
    let registers = (0..count).map(|n| format!("register r{n} : low{width} = {n}\n"));
    let registers: String = registers.collect();
    let source = format!("label low -> high label high\n{registers}state root : low {{ fall }}");
    read(&assemble(&source).unwrap()).unwrap()
}

#[test]
fn old_lease_tables_become_today_s() {
    for (format, length) in [(1, 208), (2, 210)] {
        let old = bytes(&format!("tools/tests/data/lease_format_{format}.table"));
        assert_eq!(old.len(), length);
        assert_eq!(form(&old), Form::Old(format));
        assert_eq!(upgrade(&old), Ok(bytes("designs/lease.table")));
    }
}

/// Every table that can be cut, also a refused one, without its parameters; in format 1 with wide
/// registers.
#[test]
fn only_width_and_parameters_are_added() {
    let mut tables: Vec<Table> = designs("table")
        .iter()
        .filter_map(|name| read(&bytes(&format!("designs/{name}.table"))).ok())
        .collect();
    let mut random = Random::new(31);
    for _ in 0..200 {
        let size = Size::random(&mut random);
        tables.push(read(&any_design(&mut random, size).image()).unwrap());
    }
    let mut upgrades = 0;
    for table in &mut tables {
        for state in &mut table.states {
            (state.count, state.bounds) = (0, Default::default());
        }
        for format in [2, 1] {
            if format == 1 {
                (table.registers.iter_mut()).for_each(|register| register.width = 32);
            }
            let old = in_format(format, table);
            match form(&old) {
                Form::Old(found) if found == format || table.registers.is_empty() => upgrades += 1,
                // Only where another format divides the records too.
                other => {
                    let (registers, states) = (table.registers.len(), table.states.len());
                    let divided = registers % if format == 1 { 7 } else { 6 } == 0;
                    assert!(divided || states % 9 == 0, "{format}: {other:?}");
                    continue;
                }
            }
            assert_eq!(upgrade(&old), Ok(table.image()));
        }
    }
    assert!(upgrades > 300, "{upgrades}");
}

#[test]
fn tables_of_format_3_are_left() {
    for name in designs("table") {
        let image = bytes(&format!("designs/{name}.table"));
        assert_eq!(form(&image), Form::Today, "{name}");
        assert_eq!(advice(&image), None);
        if read(&image).is_ok() {
            let refused = Err("is a table of format 3 already".to_string());
            assert_eq!(upgrade(&image), refused, "{name}");
        }
    }
}

#[test]
fn what_is_no_table_is_refused() {
    let old = bytes("tools/tests/data/lease_format_2.table");
    for (image, why) in [
        (&[][..], "a directory has 20 bytes, the image 0"),
        (&old[..209], "the sections end at 210, the image at 209"),
        (
            &with_records(&[0; 13], &[0; 4]),
            "the registers have 13 bytes, with 7 for each",
        ),
        (
            &with_records(&[], &[0; 5]),
            "the states have 5 bytes, with 4 for each",
        ),
        (
            &with_records(&[0; 65 * 7], &[0; 4]),
            "it has 65 registers, and 64 are the most",
        ),
        (
            &with_records(&[0; 65 * 6], &[0; 4]),
            "it has 65 registers, and 64 are the most",
        ),
    ] {
        let expected = format!("is no table of format 1 or 2: {why}");
        assert_eq!(upgrade(image), Err(expected));
    }
}

/// 42 bytes are 7 registers of format 1 or 6 of format 2. The fields tell which.
#[test]
fn registers_tell_where_the_directory_does_not() {
    let old = in_format(1, &declared(7, ""));
    assert_eq!(form(&old), Form::Old(1));
    assert_eq!(upgrade(&old), Ok(declared(7, "").image()));
    let explained = explain::explain(&old, library::check(&old));
    assert!(explained.starts_with("refused by 1 at place 0\n"));
    assert!(explained.contains("\nIt is a table of format 1, whose register records have 6 bytes"));
    for width in ["", " width 10", " width 3"] {
        let old = in_format(2, &declared(6, width));
        assert_eq!(form(&old), Form::Old(2));
        assert_eq!(upgrade(&old), Ok(declared(6, width).image()));
    }
    // Registers that keep rule 3 in neither form: the newer one is taken.
    assert_eq!(form(&with_records(&[255; 42], &[0; 4])), Form::Old(2));
}

/// 36 bytes are 9 states of an old format or 4 of today's. The fields tell which.
#[test]
fn states_tell_where_the_directory_does_not() {
    let states = |count: usize| {
        let states = (1..count).map(|n| format!("state s{n} in root : high {{ goto s{n} }}\n"));
        let states: String = states.collect();
        let source = format!("label low -> high label high\nstate root : low {{ fall }}\n{states}");
        read(&assemble(&source).unwrap()).unwrap()
    };
    for format in [1, 2] {
        let old = in_format(format, &states(9));
        assert!(read(&old).is_ok());
        assert_eq!(
            form(&old),
            Form::Old(2),
            "without registers both are the same"
        );
        assert_eq!(upgrade(&old), Ok(states(9).image()));
    }
    assert_eq!(form(&states(4).image()), Form::Today);
    assert_eq!(form(&with_records(&[], &[255; 36])), Form::Today);
}

/// Bytes that keep rule 3 as 7 records of 6 bytes and as 6 records of 7.
#[test]
fn where_nothing_tells_it_is_refused() {
    let mut image = in_format(1, &declared(7, ""));
    let registers = &mut image[24..66];
    registers.fill(0);
    for (at, byte) in [(6, 1), (13, 1), (20, 32), (27, 32), (34, 32), (41, 32)] {
        registers[at] = byte;
    }
    assert_eq!(form(&image), Form::Unsure);
    let why = upgrade(&image).unwrap_err();
    let expected = "is a table of format 2 or of format 1, and nothing tells which; print it with ";
    assert!(why.starts_with(expected), "{why}");
    assert_eq!(advice(&image), Some(why));
}

/// Bytes that keep their rules as 4 states of today and as 9 of before: each goes its own way.
#[test]
fn where_nothing_tells_today_s_form_decides() {
    let mut table = declared(0, "");
    let record = table.states[0];
    table.states = vec![record; 4];
    let image = table.image();
    assert_eq!(form(&image), Form::Either);
    let why = upgrade(&image).unwrap_err();
    let expected = "can be read as a table of format 3, and is taken for one; if it is older, ";
    assert!(why.starts_with(expected), "{why}");
    assert_eq!(advice(&image), None);
    assert!(print(&table).contains("state s3 in s0 : l0 { [command 0 again] }\n"));
}
