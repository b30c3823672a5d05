//! Characters that look like nothing, and bytes that are no characters.

use super::fault::{Fault, Position};
use super::faults::Faults;

/// What parts words. Line ends do so too.
pub fn is_blank(one: char) -> bool {
    matches!(one, ' ' | '\t' | '\r' | '\x0b' | '\x0c')
}

/// Looks like a blank or like nothing at all, and is no ASCII.
pub fn is_odd_blank(one: char) -> bool {
    let unseen = matches!(one, '\u{ad}' | '\u{180e}' | '\u{200b}'..='\u{200f}' | '\u{202a}'..='\u{202e}' | '\u{2060}'..='\u{2064}' | '\u{feff}');
    !one.is_ascii() && (one.is_whitespace() || unseen)
}

/// The fault of an odd blank.
pub fn odd(one: char, at: Position) -> Fault {
    let first = Position { line: 1, column: 1 };
    if one == '\u{feff}' && at == first {
        let expected = "a text without a byte order mark";
        return Fault::new(at, expected, code(one)).hint("save it as UTF-8 without one");
    }
    let found = match name(one) {
        Some(name) => format!("{}, {name}", code(one)),
        None => code(one),
    };
    Fault::new(at, "an ASCII blank, or nothing", found)
}

/// A character as a fault names it: what is not seen by its number, what is easily taken for another by both.
pub fn shown(one: char) -> String {
    match one {
        _ if one.is_control() => code(one),
        _ if one.is_ascii() || one.is_alphanumeric() => format!("`{one}`"),
        _ => format!("`{one}` ({})", code(one)),
    }
}

fn code(one: char) -> String {
    format!("U+{:04X}", u32::from(one))
}

fn name(one: char) -> Option<&'static str> {
    Some(match one {
        '\u{a0}' => "a no-break space",
        '\u{ad}' => "a soft hyphen",
        '\u{200b}' => "a zero-width space",
        '\u{202f}' => "a narrow no-break space",
        '\u{2028}' => "a line separator",
        '\u{3000}' => "an ideographic space",
        '\u{feff}' => "a byte order mark",
        _ => return None,
    })
}

const UTF_16: &str = "it seems to be UTF-16: save it as UTF-8";

const OTHER: &str = "save the text as UTF-8";

/// The text of a file. Where it is none: the text with a mark for each wrong byte, and the faults.
pub fn decode(bytes: Vec<u8>) -> Result<String, (String, Faults)> {
    let bytes = match String::from_utf8(bytes) {
        Ok(text) => return Ok(text),
        Err(error) => error.into_bytes(),
    };
    let wide = bytes.starts_with(&[0xff, 0xfe]) || bytes.starts_with(&[0xfe, 0xff]);
    let (mut text, mut faults) = (String::new(), Vec::new());
    let mut at = Position { line: 1, column: 1 };
    for chunk in bytes.utf8_chunks() {
        for one in chunk.valid().chars() {
            match one {
                '\n' => (at.line, at.column) = (at.line + 1, 1),
                _ => at.column += 1,
            }
        }
        text += chunk.valid();
        for byte in chunk.invalid() {
            let hint = if wide { UTF_16 } else { OTHER };
            let fault = Fault::new(at, "UTF-8", format!("the byte 0x{byte:02X}"));
            faults.push(fault.hint(hint));
            text.push(char::REPLACEMENT_CHARACTER);
            at.column += 1;
        }
    }
    Err((text, Faults::new(faults)))
}
