//! Filing forms and the order over designs, request E12: both are the proved library's. What is said of them is the
//! tool's.

mod order;

use crate::compare::compare_named;
use crate::explain;
use crate::library::{self, Answer};
use crate::names::Names;
use crate::table::read::read;
use crate::text::faults::Faults;
use crate::{numbering, text};
pub use order::Order;
use std::cmp::Ordering;

/// What came of a filing.
pub struct Filed {
    pub answer: Answer,
    /// For the user. An error where the library's form is not the one that the tool comes to.
    pub words: Result<String, String>,
    /// The form; empty where the design was refused.
    pub image: Vec<u8>,
}

pub fn file_table(image: &[u8]) -> Filed {
    file_named(image, None)
}

/// With the names of the table, where they are known.
pub fn file_named(image: &[u8], names: Option<&Names>) -> Filed {
    let (answer, form) = by_library(image);
    let words = match answer.number {
        0 => words(image, &form),
        _ => Ok(explain::explain_named(image, names, answer)),
    };
    Filed {
        answer,
        words,
        image: form,
    }
}

pub fn file_text(source: &str) -> Result<Filed, Faults> {
    let design = text::parse(source)?;
    let (table, positions) = numbering::number(&design)?;
    let image = table.image();
    let mut filed = file_table(&image);
    if filed.answer.number != 0 {
        filed.words = Ok(explain::explain_text(
            source,
            &image,
            &positions,
            filed.answer,
        ));
    }
    Ok(filed)
}

/// A form is as long as its image.
fn by_library(image: &[u8]) -> (Answer, Vec<u8>) {
    let mut out = vec![0; image.len()];
    let answer = library::file(image, &mut out);
    out.truncate(answer.count);
    (answer, out)
}

/// Said where the tool would tell the user of other numbers than those that are written.
const OTHER_FORM: &str =
    "the library's filing form is not the one that the tool comes to; nothing is written";

/// Of an accepted design: how many nodes have new numbers.
fn words(image: &[u8], form: &[u8]) -> Result<String, String> {
    let table = read(image)?;
    let order = Order::of_form(&table);
    if order.apply(&table).image() != form {
        return Err(OTHER_FORM.to_string());
    }
    let [.., commands, expressions] = table.counts();
    Ok(match order.moved() {
        [0, 0] => "nothing changes: the nodes have the numbers of the filing form\n".to_string(),
        [of_commands, of_expressions] => format!(
            "new numbers: {of_commands} of {commands} commands, \
             {of_expressions} of {expressions} expressions\n"
        ),
    })
}

/// The places of accepted images in their order, each with the number of its design from 1 on. Equal ones stand side
/// by side, as they were given.
pub fn sorted(images: &[Vec<u8>]) -> Vec<(usize, usize)> {
    let forms: Vec<Vec<u8>> = images.iter().map(|image| by_library(image).1).collect();
    let mut places: Vec<usize> = (0..images.len()).collect();
    places.sort_by(|&one, &other| match forms[one] == forms[other] {
        true => Ordering::Equal,
        false => earlier(&images[one], &images[other]),
    });
    let mut number = 1;
    let numbered = (0..places.len()).map(|at| {
        let place = places[at];
        number += usize::from(at > 0 && forms[place] != forms[places[at - 1]]);
        (number, place)
    });
    numbered.collect()
}

/// Of images that are not the same design. The part that the library hands back begins where one of them does.
fn earlier(one: &[u8], other: &[u8]) -> Ordering {
    match library::earlier(one, other).as_ptr() == one.as_ptr() {
        true => Ordering::Less,
        false => Ordering::Greater,
    }
}

/// Said where the tool finds no difference between forms that differ, or one between equal ones.
const NOT_AGREED: &str =
    "the library's filing forms and what the tool reads of the designs do not agree";

/// In what two accepted images differ first, apart from node numbers; none where they are the same design.
pub fn difference(one: &[u8], other: &[u8]) -> Result<Option<String>, String> {
    difference_named(one, other, [None, None])
}

/// With the names of either, where they are known.
pub fn difference_named(
    one: &[u8],
    other: &[u8],
    names: [Option<&Names>; 2],
) -> Result<Option<String>, String> {
    let same = by_library(one).1 == by_library(other).1;
    let (one, other) = (read(one)?, read(other)?);
    let first = compare_named(&one, &other, names).first();
    match first.is_none() == same {
        true => Ok(first),
        false => Err(NOT_AGREED.to_string()),
    }
}

#[cfg(test)]
mod tests {
    use super::*;
    use crate::assemble;

    /// What no library gives that is proved: the image itself in the place of its form, and another design.
    #[test]
    fn another_form_is_not_told() {
        let source = "label low\nregister r : low = 0\nstate root : low { fall }\n\
                      state a in root : low { if r then { r := r - 1; goto a } else goto a }\n";
        let image = assemble(source).unwrap();
        let (answer, form) = by_library(&image);
        assert_eq!((answer.number, answer.count), (0, image.len()));
        assert!(form != image);
        let said = "new numbers: 0 of 6 commands, 4 of 4 expressions\n";
        assert_eq!(words(&image, &form).unwrap(), said);
        let other = assemble(&source.replace("= 0", "= 1")).unwrap();
        for wrong in [&image, &other, &form[1..].to_vec()] {
            assert_eq!(words(&image, wrong).unwrap_err(), OTHER_FORM);
        }
    }
}
