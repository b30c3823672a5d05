//! A design as a Graphviz graph: states as boxes, groups as frames around their children, gotos and falls as
//! arrows. A refused design is drawn too, as far as its records say anything.

mod arrows;
mod boxes;
mod colours;
mod dot;
mod legend;
mod shorten;
mod ways;

use crate::library::{self, Answer};
use crate::named::Named;
use crate::names::Names;
use crate::table::limits::COUNTS;
use crate::table::old;
use crate::table::read::{read, SECTIONS, STATES};
use crate::table::Table;
use crate::text::faults::Faults;
use crate::{numbering, text};
use dot::Dot;

/// A graph, and the library's verdict on what it shows.
pub struct Drawing {
    pub answer: Answer,
    pub graph: String,
}

/// Or why there is nothing to draw.
pub fn draw_table(image: &[u8]) -> Result<Drawing, String> {
    draw_named(image, None)
}

/// With the names of the table, where they are known.
pub fn draw_named(image: &[u8], names: Option<&Names>) -> Result<Drawing, String> {
    if let Some(advice) = old::advice(image) {
        return Err(advice);
    }
    let table = read(image).map_err(|why| format!("cannot be cut into records: {why}"))?;
    within_limits(&table)?;
    let numbers = Names::of_table(&table);
    Ok(Drawing {
        answer: library::check(image),
        graph: draw(&table, names.unwrap_or(&numbers)),
    })
}

/// The parser keeps the limits.
pub fn draw_text(source: &str) -> Result<Drawing, Faults> {
    let design = text::parse(source)?;
    let (table, _) = numbering::number(&design)?;
    Ok(Drawing {
        answer: library::check(&table.image()),
        graph: draw(&table, &Names::of_text(&design)),
    })
}

/// Beyond them a graph would only be large, and without states there is none.
fn within_limits(table: &Table) -> Result<(), String> {
    for ((count, most), name) in table.counts().into_iter().zip(COUNTS).zip(SECTIONS) {
        if count > most {
            return Err(format!("has {count} {name}, and {most} are the most"));
        }
    }
    match table.counts()[STATES] {
        0 => Err("has no states".to_string()),
        _ => Ok(()),
    }
}

/// Of a table within the limits.
pub(crate) fn draw(table: &Table, names: &Names) -> String {
    let named = Named { table, names };
    let mut dot = Dot::new();
    dot.line(GRAPH);
    dot.line(NODES);
    dot.line(EDGES);
    boxes::all(&mut dot, &named);
    arrows::all(&mut dot, &named);
    legend::all(&mut dot, &named);
    dot.end()
}

const GRAPH: &str =
    "graph [rankdir=TB, nodesep=0.5, ranksep=0.4, fontname=\"Arial\", fontsize=11];";
const NODES: &str =
    "node [shape=box, style=\"filled,rounded\", fontname=\"Arial\", fontsize=12, margin=\"0.16,0.08\"];";
const EDGES: &str = "edge [fontname=\"Arial\", fontsize=10, arrowsize=0.8];";
