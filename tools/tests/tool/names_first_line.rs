//! Each way in which the first line of a names file can be wrong, with its words.

use crate::names_wrong::{first, image, said, sum, OTHER};

#[test]
fn the_first_line() {
    let image = image();
    let none = "1: is no names file, which begins with `caisson names 2 sha256 SUM ..`";
    let sum = sum(&image);
    let unexpected = |found: &str| {
        format!("1: expected `caisson names 2 sha256 SUM ..`, found `caisson names {found}`")
    };
    let counts = |found: &str| {
        let expected = "labels 2 registers 1 states 5";
        format!("1: the table has `{expected}`, and the file names `{found}`")
    };
    for (line, words) in [
        (String::new(), none.to_string()),
        ("\n".into(), none.to_string()),
        ("label low\n".into(), none.to_string()),
        ("caisson name 1\n".into(), none.to_string()),
        (format!(" {}", first()), none.to_string()),
        (
            first().replace("names 2", "names 1"),
            "1: is a names file of version 1, which has no sum of itself; \
             assemble it again or remove the names file"
                .into(),
        ),
        (
            first().replace("names 2", "names 3"),
            "1: is a names file of version 3, and the tool reads version 2".into(),
        ),
        ("caisson names 01\n".into(), unexpected("01")),
        ("caisson names x 1\n".into(), unexpected("x 1")),
        ("caisson names 2\n".into(), unexpected("2")),
        (
            "caisson names 2 sha1 5 x\n".into(),
            unexpected("2 sha1 5 x"),
        ),
        (
            format!("caisson names 2 sha256 {}\n", &sum[1..]),
            unexpected(&format!("2 sha256 {}", &sum[1..])),
        ),
        (
            format!(
                "caisson names 2 sha256 {} labels 2\n",
                sum.replace(|one: char| one.is_ascii_digit(), "A")
            ),
            unexpected(&format!(
                "2 sha256 {} labels 2",
                sum.replace(|one: char| one.is_ascii_digit(), "A")
            )),
        ),
        (
            format!("caisson names 2 sha256 {sum}\n"),
            unexpected(&format!("2 sha256 {sum}")),
        ),
        (
            first().trim_end().into(),
            "1: the last line has no line end".into(),
        ),
        (
            format!("caisson names 2 sha256 {} labels 2\n", "0".repeat(64)),
            OTHER.into(),
        ),
        (
            first().replace("states 5", "states 4"),
            counts("labels 2 registers 1 states 4"),
        ),
        (
            first().replace("states 5", "states 05"),
            counts("labels 2 registers 1 states 05"),
        ),
        (
            first().replace(" states 5", ""),
            counts("labels 2 registers 1"),
        ),
        (
            first().replace('\n', "\r\n"),
            counts("labels 2 registers 1 states 5\\r"),
        ),
        (
            first().replace("labels 2 registers 1 states", "inputs 2 flipflops 1 gates"),
            counts("inputs 2 flipflops 1 gates 5"),
        ),
    ] {
        assert_eq!(said(line.as_bytes(), &image), words, "{line}");
    }
}
