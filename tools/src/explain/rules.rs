//! The rules in words, and what their places are: those of `include/caisson_refusals.def`, where each is
//! worded once.

use super::parameters;
use crate::named::Named;
use crate::table::place::Place;

const WORDS: &str = include_str!("../../../include/caisson_refusals.def");

/// What is wrong, and the rule in full.
pub fn rule(number: u32) -> String {
    match row(number).map(strings).as_deref() {
        Some([_place, wrong, more]) => format!("{wrong} {more}").trim_end().to_string(),
        _ => "The tool has no words for this number.".to_string(),
    }
}

/// What is wrong alone.
pub fn wrong(number: u32) -> String {
    match row(number).map(strings).as_deref() {
        Some([_place, wrong, _more]) => wrong.clone(),
        _ => rule(number),
    }
}

/// What stands at the place of a refusal of an image. None where the place is the number of nothing, of a
/// wire or a record of a trace, which no image has, or of what a port write or a replay was given. A parameter is
/// refused in the record of a state, else at a node.
pub fn place(table: &Named, number: u32, place: usize) -> Option<Place> {
    match row(number)?.split(',').nth(3)?.trim() {
        "LABEL" => Some(Place::Label(place)),
        "REGISTER" => Some(Place::Register(place)),
        "STATE" => Some(Place::State(place)),
        "PARAMETER" if parameters::of_states(table) => Some(Place::State(place)),
        "NODE" | "PARAMETER" => Some(Place::node(place)),
        _ => None,
    }
}

fn row(number: u32) -> Option<&'static str> {
    let start = format!("CAISSON_REFUSAL({number},");
    WORDS.split("\n\n").find(|row| row.starts_with(&start))
}

/// The strings of a row; those with only blanks between them are one.
fn strings(row: &str) -> Vec<String> {
    let mut strings = vec![String::new()];
    let mut pieces = row.split('"').skip(1);
    while let (Some(text), Some(between)) = (pieces.next(), pieces.next()) {
        let last = strings.len() - 1;
        strings[last] += text;
        if between.contains(',') {
            strings.push(String::new());
        }
    }
    strings
}

#[cfg(test)]
mod tests {
    use super::*;
    use crate::names::Names;
    use crate::table::Table;

    #[test]
    fn every_row_has_words() {
        let rows = WORDS.split("\nCAISSON_REFUSAL(").skip(1);
        let numbers = rows.map(|row| row.split(',').next().unwrap().parse().unwrap());
        let numbers: Vec<u32> = numbers.collect();
        assert!(numbers.starts_with(&[1, 2, 3]) && numbers.ends_with(&[24, 25, 26]));
        for &number in &numbers {
            let words = rule(number);
            assert!(
                words.ends_with('.') && !words.contains(['"', '\n']),
                "{number}: {words}"
            );
            assert!(!words.starts_with("The tool has no words"), "{number}");
        }
        for none in [0, 27] {
            assert_eq!(rule(none), "The tool has no words for this number.");
        }
        assert_eq!(
            rule(6),
            "A node is not used exactly once, by a state or as one part of another node."
        );
    }

    #[test]
    fn every_refusal_of_an_image_but_1_has_a_place() {
        let table = &Table::default();
        let names = &Names::of_table(table);
        let place = |number, at| place(&Named { table, names }, number, at);
        for number in 2..=12 {
            let expected = match number {
                2 => Place::Label(5),
                3 => Place::Register(5),
                4 | 9 => Place::State(5),
                _ => Place::Command(5),
            };
            assert_eq!(place(number, 5), Some(expected), "{number}");
        }
        assert_eq!(place(16, 1_023), Some(Place::Command(1_023)));
        assert_eq!(place(5, 1_024), Some(Place::Expression(0)));
        assert_eq!(place(19, 1_023), Some(Place::Command(1_023)));
        for nothing in [0, 1, 13, 17, 18, 20, 21, 22, 23, 24, 25, 26, 99] {
            assert_eq!(place(nothing, 0), None, "{nothing}");
        }
    }
}
