//! A text with other labels of its registers: their names are put in the place of the old ones, and all
//! else stays as it is, comments and layout too.

use crate::names::Names;
use crate::text::fault::Position;
use crate::text::tree::Design;

pub fn relabelled(source: &str, design: &Design, labels: &[u8], names: &Names) -> String {
    let mut lines: Vec<String> = source.split_inclusive('\n').map(str::to_string).collect();
    // From the end on, so that the columns before stay where they are.
    let mut changes: Vec<(Position, &str, &str)> = (design.registers.iter().zip(labels))
        .map(|(register, label)| {
            let old = &register.label;
            (old.at, old.text.as_str(), names.label(*label))
        })
        .filter(|(_, old, new)| old != new)
        .collect();
    changes.sort_by_key(|(at, ..)| (at.line, at.column));
    for (at, old, new) in changes.into_iter().rev() {
        let line = &mut lines[at.line - 1];
        let start = byte_of(line, at.column);
        line.replace_range(start..start + old.len(), new);
    }
    lines.concat()
}

/// Columns are counted in characters, from 1.
fn byte_of(line: &str, column: usize) -> usize {
    let mut characters = line.char_indices();
    characters.nth(column - 1).map_or(line.len(), |(at, _)| at)
}
