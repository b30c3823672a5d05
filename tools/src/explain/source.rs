//! A line of the source text, with a marker below a column of it.

use crate::text::excerpt::excerpt;
use crate::text::fault::Position;

pub fn line(text: &str, at: Position) -> String {
    let Position { line, column } = at;
    format!(
        "In the text, line {line}, column {column}:\n{}",
        excerpt(text, at)
    )
}
