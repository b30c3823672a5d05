//! Measuring the library beside the reference.

mod chains;
mod measure;
mod subjects;

pub mod check;
pub mod file;
pub mod gates;
pub mod journals;
pub mod prune;
pub mod raise;
pub mod replays;
pub mod reset;
pub mod run;
