//! Designs and gate tables as source text. `designs/README.md` documents the text form.

pub mod check;
pub mod compare;
mod declared;
pub mod draw;
pub mod explain;
pub mod filing;
pub mod gates;
pub mod library;
pub mod lint;
mod named;
mod names;
pub mod names_file;
pub mod near;
mod numbering;
mod operator;
mod positions;
mod print;
pub mod prune;
pub mod raise;
mod sha256;
mod table;
mod text;
pub mod version;
mod worded;

pub use names::Names;
use names_file::NamesFile;
pub use positions::Positions;
pub use print::{print, print_named};
pub use table::old;
pub use table::read::read;
pub use table::Table;
pub use text::characters::decode;
pub use text::fault::Fault;
pub use text::faults::Faults;

/// The table of a source text, of a design or of gates as its first word says.
pub fn assemble(source: &str) -> Result<Vec<u8>, Faults> {
    if gates::is_text(source) {
        return gates::assemble_placed(source).map(|(image, _)| image);
    }
    assemble_placed(source).map(|(image, _)| image)
}

/// The table of the text of a file, of a design or of gates, and its names file.
pub fn assemble_named(file: &str, source: &str) -> Result<(Vec<u8>, String), Faults> {
    let image = assemble(source)?;
    let names = NamesFile::of_text(file, source)?.text(&image);
    Ok((image, names))
}

/// The table of a design, with where each of its records stands in the text.
pub fn assemble_placed(source: &str) -> Result<(Vec<u8>, Positions), Faults> {
    let design = text::parse(source)?;
    let (table, positions) = numbering::number(&design)?;
    Ok((table.image(), positions))
}
