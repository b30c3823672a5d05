//! Words that are nearly another: for hints.

/// The candidate that a word is nearest to, if so near that it may be meant: of the same letters in another case, or
/// one edit away, two where one of them has five letters or more. An edit adds, drops or changes a letter, or exchanges two
/// neighbours.
pub fn near<'a>(word: &str, candidates: impl IntoIterator<Item = &'a str>) -> Option<&'a str> {
    let candidates = candidates.into_iter();
    let edits = candidates.filter_map(|one| Some((edits(word, one)?, one)));
    // Of several the first: `min_by_key` keeps it.
    edits.min_by_key(|(edits, _)| *edits).map(|(_, one)| one)
}

/// None where there are too many.
fn edits(word: &str, other: &str) -> Option<usize> {
    let lengths = [word, other].map(|one| one.chars().count());
    let most = match (lengths[0].min(lengths[1]), lengths[0].max(lengths[1])) {
        (0..=2, _) => 0,
        (_, 3..=4) => 1,
        _ => 2,
    };
    if word != other && word.eq_ignore_ascii_case(other) {
        return Some(0);
    }
    Some(distance(word, other)).filter(|edits| (1..=most).contains(edits))
}

fn distance(word: &str, other: &str) -> usize {
    let (word, other): (Vec<char>, Vec<char>) = (word.chars().collect(), other.chars().collect());
    let mut rows: Vec<Vec<usize>> = vec![(0..=other.len()).collect()];
    for i in 1..=word.len() {
        let mut row = vec![i];
        for j in 1..=other.len() {
            let changed = usize::from(word[i - 1] != other[j - 1]);
            let mut least = (rows[i - 1][j] + 1).min(row[j - 1] + 1);
            least = least.min(rows[i - 1][j - 1] + changed);
            if i > 1 && j > 1 && word[i - 1] == other[j - 2] && word[i - 2] == other[j - 1] {
                least = least.min(rows[i - 2][j - 2] + 1);
            }
            row.push(least);
        }
        rows.push(row);
    }
    rows[word.len()][other.len()]
}

#[cfg(test)]
mod tests {
    use super::near;

    #[test]
    fn what_is_near() {
        let candidates = ["a", "timer", "time", "mode", "reading"];
        for (word, meant) in [
            ("timr", Some("timer")),
            ("tmier", Some("timer")),
            ("Timer", Some("timer")),
            ("times", Some("timer")),
            ("raeding", Some("reading")),
            ("reedinq", Some("reading")),
            ("reedimq", None),
            ("mod", Some("mode")),
            ("mo", None),
            ("tmr", Some("timer")),
            ("mde", Some("mode")),
            ("xed", None),
            ("A", Some("a")),
            ("b", None),
            ("timer", Some("time")),
        ] {
            assert_eq!(near(word, candidates), meant, "{word}");
        }
        assert_eq!(near("mode", ["mode"]), None);
    }
}
