//! Conditions as the label of an arrow: some short lines, whatever the design has.

/// The longest line of a label, and the most lines of one.
const LINE: usize = 36;
const LINES: usize = 4;

/// The whole, on one line.
pub fn whole(when: &[Vec<String>]) -> String {
    let each: Vec<String> = when.iter().map(|all| all.join(" and ")).collect();
    each.join(" or ")
}

/// Lines that break before `and` and `or`; what is long ends in `…`.
pub fn short(when: &[Vec<String>]) -> Vec<String> {
    let mut lines: Vec<String> = Vec::new();
    for (alternative, conditions) in when.iter().enumerate() {
        for (number, condition) in conditions.iter().enumerate() {
            let word = match (number, alternative) {
                (0, 0) => "",
                (0, _) => "or ",
                _ => "and ",
            };
            let piece = cut(&format!("{word}{condition}"));
            match lines.last_mut() {
                Some(last) if number > 0 && length(last) + 1 + length(&piece) <= LINE => {
                    *last += " ";
                    *last += &piece;
                }
                _ => lines.push(piece),
            }
        }
    }
    if lines.len() > LINES {
        lines.truncate(LINES - 1);
        lines.push("…".to_string());
    }
    lines
}

fn length(text: &str) -> usize {
    text.chars().count()
}

fn cut(text: &str) -> String {
    if length(text) <= LINE {
        return text.to_string();
    }
    let kept: String = text.chars().take(LINE - 1).collect();
    format!("{}…", kept.trim_end())
}

#[cfg(test)]
mod tests {
    use super::*;

    fn all(conditions: &[&str]) -> Vec<String> {
        conditions.iter().map(|one| one.to_string()).collect()
    }

    #[test]
    fn what_fits_stays_whole() {
        let most = "x".repeat(LINE);
        for (when, expected) in [
            (vec![all(&[])], vec![]),
            (vec![all(&["a == 0"])], vec!["a == 0"]),
            (vec![all(&["a", "not (b)"])], vec!["a and not (b)"]),
            (vec![all(&["a"]), all(&["b", "c"])], vec!["a", "or b and c"]),
            (vec![all(&[&most])], vec![&most]),
        ] {
            assert_eq!(short(&when), expected);
        }
    }

    #[test]
    fn what_is_long_is_cut() {
        let long = "x".repeat(LINE + 1);
        let cut = "x".repeat(LINE - 1) + "…";
        assert_eq!(short(&[all(&[&long])]), [cut.as_str()]);
        let line = "y".repeat(LINE - 4);
        let lines = short(&[all(&[&line, &line, &line, &line])]);
        assert_eq!(lines.len(), LINES);
        assert_eq!(lines[1], format!("and {line}"));
        let lines = short(&[all(&[&line, &line, &line, &line, &line])]);
        assert_eq!((lines.len(), lines[LINES - 1].as_str()), (LINES, "…"));
        assert_eq!(whole(&[all(&["a", "b"]), all(&["c"])]), "a and b or c");
    }
}
