//! Random images: designs that keep every rule, and faults of every kind put into them.

mod body;
pub mod change;
mod design;
pub mod edit;
pub mod faults;
pub mod gates;
mod lattice;
pub mod parameters;
mod raising;
pub mod random;
mod renumber;
mod size;
mod spare;

pub use design::{any_design, design, full_of_parameters, parameterised};
pub use raising::{chained, lowered};
pub use renumber::renumbered;
pub use size::Size;
pub use spare::{lively, with_spares};
