//! Why the label rows are no lattice, at the label that is charged: every rule that fails with it
//! first.

use crate::named::Named;
use crate::print::records::label_name;

pub fn reasons(table: &Named, label: usize) -> String {
    let rows = Rows(table);
    let mut reasons = rows.out_of_range(label);
    if !rows.flows(label, label) {
        reasons.push(format!("{} does not flow to itself", rows.name(label)));
    }
    for other in rows.labels() {
        reasons.extend(rows.with_another(label, other));
    }
    reasons
        .into_iter()
        .map(|reason| format!("    {reason}\n"))
        .collect()
}

struct Rows<'a>(&'a Named<'a>);

impl Rows<'_> {
    fn labels(&self) -> std::ops::Range<usize> {
        0..self.0.rows.len()
    }

    fn flows(&self, from: usize, to: usize) -> bool {
        self.0.rows[from] >> to & 1 == 1
    }

    fn name(&self, label: usize) -> String {
        label_name(self.0, label)
    }

    fn out_of_range(&self, label: usize) -> Vec<String> {
        let count = self.0.rows.len();
        (count..16)
            .filter(|&bit| self.flows(label, bit))
            .map(|bit| format!("bit {bit} is set, and there are {count} labels"))
            .collect()
    }

    fn with_another(&self, label: usize, other: usize) -> Vec<String> {
        let (this, that) = (self.name(label), self.name(other));
        let mut reasons = Vec::new();
        if label != other && self.flows(label, other) && self.flows(other, label) {
            reasons.push(format!("{this} and {that} flow to each other"));
        }
        if label == 0 && !self.flows(0, other) {
            reasons.push(format!("{this} is label 0 and does not flow to {that}"));
        }
        if self.flows(label, other) {
            for third in self.labels() {
                if self.flows(other, third) && !self.flows(label, third) {
                    let third = self.name(third);
                    reasons.push(format!(
                        "{this} flows to {that}, which flows to {third}, and {this} does not"
                    ));
                }
            }
        }
        if !self.have_least_common(label, other) {
            reasons.push(format!(
                "{this} and {that} have no least common label above them"
            ));
        }
        reasons
    }

    fn have_least_common(&self, label: usize, other: usize) -> bool {
        let above = |k: usize| self.flows(label, k) && self.flows(other, k);
        self.labels()
            .any(|k| above(k) && self.labels().all(|m| !above(m) || self.flows(k, m)))
    }
}
