//! What the colours and the arrows say, as a table below the states.

use super::boxes::few;
use super::colours;
use super::dot::{markup, Dot};
use crate::named::Named;

/// It is the label of the whole, so that it moves no state.
pub fn all(dot: &mut Dot, named: &Named) {
    let labels = 0..named.table.rows.len() as u8;
    let rows: Vec<String> = labels.map(|label| row(named, label)).collect();
    let arrows = format!(
        "<td rowspan=\"{}\" align=\"left\">{ARROWS}</td>",
        rows.len().max(1)
    );
    let (first, others) = match rows.split_first() {
        Some((first, others)) => (first.as_str(), others),
        None => ("", &rows[..]),
    };
    let others: String = (others.iter())
        .map(|row| format!("<tr>{row}</tr>"))
        .collect();
    let rows = format!("<tr>{first}{arrows}</tr>{others}");
    dot.line("labelloc=b;");
    dot.line("labeljust=l;");
    dot.line(&format!(
        "label=<<table border=\"0\" cellspacing=\"3\" cellpadding=\"4\">{rows}</table>>;"
    ));
}

/// A swatch with the name of a label, and the labels that it flows to.
fn row(named: &Named, label: u8) -> String {
    let others = (0..named.table.rows.len() as u8)
        .filter(|&other| other != label && named.table.flows(label, other))
        .map(|other| named.label(other));
    let others: Vec<String> = others.collect();
    let flows = match others.is_empty() {
        true => "flows to no other".to_string(),
        false => format!("flows to {}", few(&others)),
    };
    format!(
        "<td {}><i>{}</i></td><td align=\"left\">{}</td>",
        colours::of_swatch(label),
        markup(&named.label(label)),
        markup(&flows)
    )
}

const ARROWS: &str = "<font point-size=\"10\">\
    An arrow is a goto, with its conditions and arguments.<br align=\"left\"/>\
    A dashed one is a fall: to the child last gone to, or<br align=\"left\"/>\
    else to the default child, at the arrow of the dot.<br align=\"left\"/></font>";
