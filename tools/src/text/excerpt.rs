//! A line of a text, with a marker below a column of it.

use super::fault::Position;

/// Of a line that is longer only the part around the column is shown.
const WIDEST: usize = 500;

pub fn excerpt(text: &str, at: Position) -> String {
    let line = text.lines().nth(at.line - 1).unwrap_or_default();
    let line: Vec<char> = line.chars().map(shown).collect();
    let (start, end) = match line.len() > WIDEST {
        true => {
            let start = (at.column - 1).saturating_sub(WIDEST / 2);
            (start, (start + WIDEST).min(line.len()))
        }
        false => (0, line.len()),
    };
    let part: String = line[start..end].iter().collect();
    let (before, behind) = (cut(start > 0), cut(end < line.len()));
    // Space is kept as it is: a tab moves the marker as far as it moves the line.
    let up_to = (at.column - 1).min(line.len());
    let blank = |one: &char| if one.is_whitespace() { *one } else { ' ' };
    let mut space: String = before.chars().map(|one| blank(&one)).collect();
    space.extend(line[start..up_to].iter().map(blank));
    format!("    {before}{part}{behind}\n    {space}^\n")
}

fn cut(cut: bool) -> &'static str {
    match cut {
        true => "..",
        false => "",
    }
}

/// A character that would move the terminal's cursor is shown as one that does not.
fn shown(one: char) -> char {
    match one.is_control() && one != '\t' {
        true => char::REPLACEMENT_CHARACTER,
        false => one,
    }
}
