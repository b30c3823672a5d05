//! The text of a graph: lines with indents, and strings that say what they are given, whatever it is.

pub struct Dot {
    text: String,
    indent: usize,
}

impl Dot {
    pub fn new() -> Dot {
        Dot {
            text: "digraph design {\n".to_string(),
            indent: 1,
        }
    }

    pub fn line(&mut self, line: &str) {
        self.text += &"    ".repeat(self.indent);
        self.text += line;
        self.text.push('\n');
    }

    pub fn open(&mut self, head: &str) {
        self.line(&format!("{head} {{"));
        self.indent += 1;
    }

    pub fn close(&mut self) {
        self.indent -= 1;
        self.line("}");
    }

    pub fn end(mut self) -> String {
        self.text += "}\n";
        self.text
    }
}

/// A string in quotes. A backslash would begin an escape, such as `\N`, the name of the node.
pub fn quoted(text: &str) -> String {
    let escaped = text.replace('\\', "\\\\").replace('"', "\\\"");
    format!("\"{}\"", escaped.replace('\n', "\\n"))
}

/// A tooltip is put into the page as it stands, so `&` and `<` would be read as markup there.
pub fn tooltip(text: &str) -> String {
    quoted(&text.replace('&', "&amp;"))
}

/// A piece of a label that Graphviz reads as markup.
pub fn markup(text: &str) -> String {
    text.replace('&', "&amp;")
        .replace('<', "&lt;")
        .replace('>', "&gt;")
        .replace('"', "&quot;")
}

#[cfg(test)]
mod tests {
    use super::*;

    #[test]
    fn any_text_is_quoted() {
        for (text, expected) in [
            ("timer", r#""timer""#),
            ("", r#""""#),
            (r#"a "b" c"#, r#""a \"b\" c""#),
            (r"\N", r#""\\N""#),
            (r#"ends in \"#, r#""ends in \\""#),
            (r#"\""#, r#""\\\"""#),
            ("two\nlines", r#""two\nlines""#),
            ("[state 9]", r#""[state 9]""#),
        ] {
            assert_eq!(quoted(text), expected);
        }
    }

    #[test]
    fn markup_and_tooltips_are_escaped() {
        assert_eq!(markup("a <b> & \"c\""), "a &lt;b&gt; &amp; &quot;c&quot;");
        assert_eq!(tooltip("a & b"), r#""a &amp; b""#);
    }
}
