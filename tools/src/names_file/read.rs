//! A names file from its text, for one table: what is wrong in it, and in which line.

use super::{is_source, Entry, Family, NamesFile, Shape, FIRST, LARGEST, VERSION};
use crate::sha256;
use std::collections::HashMap;
use std::fmt;

const OTHER_TABLE: &str =
    "is not of this table: it was made for another, or the table was changed; \
    assemble it again or remove the names file";

const CHANGED: &str =
    "the sum is not that of the lines above: the names file was changed; assemble it again \
    or remove the names file";

/// The first version of the form had no sum of the file itself.
const NO_SUM: &str = "is a names file of version 1, which has no sum of itself; \
    assemble it again or remove the names file";

/// What is wrong in a names file, with the line, from 1.
#[derive(Clone, Debug, PartialEq, Eq)]
pub struct Wrong {
    pub line: usize,
    pub why: String,
}

impl fmt::Display for Wrong {
    fn fmt(&self, out: &mut fmt::Formatter) -> fmt::Result {
        write!(out, "{}: {}", self.line, self.why)
    }
}

impl NamesFile {
    /// The file has to be of the table with this image. Of one that cannot be cut into records, and so has no shape,
    /// nothing but the sum can be compared, and nothing has a name.
    pub fn read(
        file: &[u8],
        image: &[u8],
        shape: Option<&Shape>,
    ) -> Result<Option<NamesFile>, Wrong> {
        let mut reader = Reader::new(file)?;
        let counts = reader.of_table(image)?;
        let Some(shape) = shape else {
            return Ok(None);
        };
        reader.counts(counts, shape)?;
        let source = reader.source()?;
        let kinds = reader.kinds(shape)?;
        let parameters = reader.parameters(shape, &kinds)?;
        reader.sum(file)?;
        reader.end()?;
        Ok(Some(NamesFile {
            family: shape.family,
            source,
            kinds,
            parameters,
        }))
    }
}

struct Reader<'a> {
    rest: &'a str,
    /// Of the line that was read last.
    line: usize,
}

impl<'a> Reader<'a> {
    fn new(file: &'a [u8]) -> Result<Reader<'a>, Wrong> {
        let line = |end: usize| 1 + file[..end].iter().filter(|&&byte| byte == b'\n').count();
        if file.len() > LARGEST {
            let why = format!("is larger than {LARGEST} bytes, which no names file is");
            return Err(Wrong { line: 1, why });
        }
        match std::str::from_utf8(file) {
            Ok(rest) => Ok(Reader { rest, line: 0 }),
            Err(error) => Err(Wrong {
                line: line(error.valid_up_to()),
                why: "is not UTF-8".to_string(),
            }),
        }
    }

    fn wrong<T>(&self, why: impl Into<String>) -> Result<T, Wrong> {
        let (line, why) = (self.line, why.into());
        Err(Wrong { line, why })
    }

    fn unexpected<T>(&self, expected: &str, found: &str) -> Result<T, Wrong> {
        let found = found.escape_debug();
        self.wrong(format!("expected `{expected}`, found `{found}`"))
    }

    fn next(&mut self, expected: &str) -> Result<&'a str, Wrong> {
        self.line += 1;
        if self.rest.is_empty() {
            return self.wrong(format!("the file ends here, and `{expected}` is missing"));
        }
        let Some((line, rest)) = self.rest.split_once('\n') else {
            return self.wrong("the last line has no line end");
        };
        self.rest = rest;
        Ok(line)
    }

    fn end(&mut self) -> Result<(), Wrong> {
        self.line += 1;
        match self.rest.is_empty() {
            true => Ok(()),
            false => self.wrong("is a line too many: the table has no more to name"),
        }
    }

    /// The first line, up to the sum, which has to be the image's; what is behind it.
    fn of_table(&mut self, image: &[u8]) -> Result<&'a str, Wrong> {
        let form = format!("{FIRST}{VERSION} sha256 SUM ..");
        if !self.rest.starts_with(FIRST) {
            self.line = 1;
            return self.wrong(format!("is no names file, which begins with `{form}`"));
        }
        let line = self.next(&form)?;
        let fields: Vec<&str> = line[FIRST.len()..].splitn(4, ' ').collect();
        match fields[..] {
            [VERSION, "sha256", sum, counts] if is_sum(sum) => match sum == sha256::digits(image) {
                true => Ok(counts),
                false => self.wrong(OTHER_TABLE),
            },
            ["1", ..] => self.wrong(NO_SUM),
            [version, ..] if version != VERSION && number(version).is_some() => {
                self.wrong(format!(
                    "is a names file of version {version}, and the tool reads version {VERSION}"
                ))
            }
            _ => self.unexpected(&form, line),
        }
    }

    fn counts(&self, found: &str, shape: &Shape) -> Result<(), Wrong> {
        let kinds = shape.family.kinds();
        let expected: Vec<String> = (kinds.iter().zip(shape.counts))
            .map(|(kind, count)| format!("{kind}s {count}"))
            .collect();
        let expected = expected.join(" ");
        match found == expected {
            true => Ok(()),
            false => self.wrong(format!(
                "the table has `{expected}`, and the file names `{}`",
                found.escape_debug()
            )),
        }
    }

    fn source(&mut self) -> Result<String, Wrong> {
        let form = "source FILE";
        let line = self.next(form)?;
        match line.strip_prefix("source ") {
            Some(name) if !name.is_empty() && name.bytes().all(is_source) => Ok(name.to_string()),
            _ => self.unexpected(form, line),
        }
    }

    /// All wires of a gate table have names of one kind.
    fn kinds(&mut self, shape: &Shape) -> Result<[Vec<Entry>; 3], Wrong> {
        let mut kinds = [Vec::new(), Vec::new(), Vec::new()];
        let firsts = shape.family.first_numbers(shape.counts);
        let mut taken = HashMap::new();
        for (at, kind) in shape.family.kinds().into_iter().enumerate() {
            if shape.family == Family::Design {
                taken.clear();
            }
            for number in firsts[at]..firsts[at] + shape.counts[at] {
                let which = format!("{kind} {number}");
                let entry = self.entry(&which, shape.family)?;
                if let Some(other) = taken.insert(entry.name.clone(), which) {
                    return self.taken(&entry.name, &other);
                }
                kinds[at].push(entry);
            }
        }
        Ok(kinds)
    }

    /// A parameter must not hide a label, a register or another parameter in scope, else no text would have it.
    fn parameters(
        &mut self,
        shape: &Shape,
        [labels, registers, _]: &[Vec<Entry>; 3],
    ) -> Result<Vec<Vec<Entry>>, Wrong> {
        let mut parameters: Vec<Vec<Entry>> = Vec::new();
        for (state, &(_, own)) in shape.states.iter().enumerate() {
            let above = shape.above(state);
            parameters.push(Vec::new());
            for index in 0..own {
                let entry = self.entry(&format!("parameter {state} {index}"), shape.family)?;
                let own = parameters[state].iter().map(|one| (one, state));
                let above = above.iter().flat_map(|&owner| {
                    let own = parameters[owner].iter();
                    own.map(move |one| (one, owner))
                });
                let mut in_scope = above.chain(own);
                let is = |one: &Entry| one.name == entry.name;
                if let Some(number) = labels.iter().position(is) {
                    return self.taken(&entry.name, &format!("label {number}"));
                }
                if let Some(number) = registers.iter().position(is) {
                    return self.taken(&entry.name, &format!("register {number}"));
                }
                if let Some((_, owner)) = in_scope.find(|(one, _)| is(one)) {
                    return self.taken(&entry.name, &format!("a parameter of state {owner}"));
                }
                parameters[state].push(entry);
            }
        }
        Ok(parameters)
    }

    /// Of all that stands above its line.
    fn sum(&mut self, file: &[u8]) -> Result<(), Wrong> {
        let above = file.len() - self.rest.len();
        let form = "sum SHA256";
        let line = self.next(form)?;
        match line.strip_prefix("sum ") {
            Some(sum) if sum == sha256::digits(&file[..above]) => Ok(()),
            Some(sum) if is_sum(sum) => self.wrong(CHANGED),
            _ => self.unexpected(form, line),
        }
    }

    fn taken<T>(&self, name: &str, other: &str) -> Result<T, Wrong> {
        self.wrong(format!("`{name}` is the name of {other} already"))
    }

    /// A line: which record it is of, its name, and the line that declares it.
    fn entry(&mut self, which: &str, family: Family) -> Result<Entry, Wrong> {
        let form = format!("{which} NAME LINE");
        let found = self.next(&form)?;
        let fields = found.strip_prefix(which);
        let fields = fields.and_then(|fields| fields.strip_prefix(' '));
        let fields = fields.and_then(|fields| fields.split_once(' '));
        let entry = fields.and_then(|(name, line)| Some((name, number(line)?)));
        let Some((name, line)) = entry.filter(|&(_, line)| line > 0) else {
            return self.unexpected(&form, found);
        };
        if !is_name(name) || family.reserved().contains(&name) {
            return self.wrong(format!("`{}` is no name", name.escape_debug()));
        }
        let name = name.to_string();
        Ok(Entry { name, line })
    }
}

fn is_sum(text: &str) -> bool {
    let digit = |byte: u8| byte.is_ascii_digit() || (b'a'..=b'f').contains(&byte);
    text.len() == 64 && text.bytes().all(digit)
}

/// As it is written: without a sign, and without a 0 before it.
fn number(text: &str) -> Option<usize> {
    let number: usize = text.parse().ok()?;
    (number.to_string() == text).then_some(number)
}

/// As the text form has it.
fn is_name(text: &str) -> bool {
    let letter = |byte: u8| byte.is_ascii_alphanumeric() || byte == b'_';
    text.bytes().all(letter) && text.bytes().next().is_some_and(|one| !one.is_ascii_digit())
}
