//! Which version this is, by `include/caisson.h`, and which one the library is of, as it says itself.

use crate::library;

const HEADER: &str = include_str!("../../include/caisson.h");

pub fn version() -> String {
    let (own, format) = (defined("CAISSON_VERSION"), defined("CAISSON_FORMAT"));
    let library = dotted(library::version());
    format!("caisson {own}, image format {format}, built with the library {library}\n")
}

/// What is wrong where the tool was built for another library than it is linked with. Its words and tables would be
/// those of other rules.
pub fn judged() -> Result<(), String> {
    let (own, format) = (defined("CAISSON_VERSION"), defined("CAISSON_FORMAT"));
    let (library, library_format) = (dotted(library::version()), library::format());
    match library == own && library_format.to_string() == format {
        true => Ok(()),
        false => Err(format!(
            "caisson: built for version {own}, format {format}, and linked with the library of version {library}, \
             format {library_format}: build it again with that library's sources"
        )),
    }
}

fn dotted(number: u32) -> String {
    let (first, second, third) = (number / 1_000_000, number / 1_000 % 1_000, number % 1_000);
    format!("{first}.{second}.{third}")
}

fn defined(name: &str) -> &'static str {
    let mut lines = HEADER.lines();
    let value = lines.find_map(|line| {
        line.strip_prefix("#define ")?
            .strip_prefix(name)?
            .strip_prefix(' ')
    });
    let value = value.and_then(|value| value.split_whitespace().next());
    value.unwrap_or("unknown").trim_matches('"')
}
