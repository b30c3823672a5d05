//! Bodies as lines: on one line where they fit, otherwise one command on each.

use super::body::Body;

const WIDTH: usize = 100;
const INDENT: usize = 4;

/// What nests deeper is moved no further to the right.
const WIDEST_INDENT: usize = 60;

/// A head and a body in braces.
pub fn block(head: &str, body: &Body) -> String {
    let room = WIDTH.saturating_sub(head.len() + " {  }".len());
    if let Some(line) = on_one_line(body, room) {
        return format!("{head} {{ {line} }}");
    }
    let mut text = format!("{head} ");
    braced(&mut text, body, 0);
    text
}

/// On one line, however long.
pub fn flat(body: &Body) -> String {
    on_one_line(body, usize::MAX).expect("there is room for any line")
}

fn on_one_line(body: &Body, room: usize) -> Option<String> {
    let text = String::new();
    let mut line = Line { text, room };
    line.body(body)?;
    Some(line.text)
}

/// A line of bounded length. It ends at the first piece that does not fit, so that asking at every
/// level of a deep body takes no longer than writing it.
struct Line {
    text: String,
    room: usize,
}

impl Line {
    fn push(&mut self, piece: &str) -> Option<()> {
        self.room = self.room.checked_sub(piece.len())?;
        self.text.push_str(piece);
        Some(())
    }

    fn body(&mut self, body: &Body) -> Option<()> {
        match body {
            Body::Leaf(text) => self.push(text),
            Body::Sequence(first, second) => {
                self.single(first)?;
                self.push("; ")?;
                self.body(second)
            }
            Body::If(condition, then, otherwise) => {
                self.push("if ")?;
                self.push(condition)?;
                self.push(" then ")?;
                self.single(then)?;
                self.push(" else ")?;
                self.single(otherwise)
            }
        }
    }

    /// One command: a sequence takes braces.
    fn single(&mut self, body: &Body) -> Option<()> {
        if !matches!(body, Body::Sequence(..)) {
            return self.body(body);
        }
        self.push("{ ")?;
        self.body(body)?;
        self.push(" }")
    }
}

fn lines(text: &mut String, body: &Body, indent: usize) {
    if let Some(line) = on_one_line(body, WIDTH.saturating_sub(indent)) {
        text.push_str(&line);
        return;
    }
    match body {
        Body::Leaf(leaf) => text.push_str(leaf),
        Body::Sequence(first, second) => {
            match **first {
                Body::Sequence(..) => braced(text, first, indent),
                _ => lines(text, first, indent),
            }
            text.push(';');
            start_line(text, indent);
            lines(text, second, indent);
        }
        Body::If(condition, then, otherwise) => {
            text.push_str("if ");
            text.push_str(condition);
            text.push_str(" then ");
            braced(text, then, indent);
            text.push_str(" else ");
            braced(text, otherwise, indent);
        }
    }
}

fn braced(text: &mut String, body: &Body, indent: usize) {
    let inner = (indent + INDENT).min(WIDEST_INDENT);
    text.push('{');
    start_line(text, inner);
    lines(text, body, inner);
    start_line(text, indent);
    text.push('}');
}

fn start_line(text: &mut String, indent: usize) {
    text.push('\n');
    text.push_str(&" ".repeat(indent));
}
