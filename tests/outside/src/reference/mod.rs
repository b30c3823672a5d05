//! Document 01 with requests E1 to E4 and E6 to E13 of document 02, implemented for clarity: tables and passes
//! over node numbers, no recursion in the checker, so that it shares as little as possible with the
//! proved library.

pub mod calls;
mod directory;
mod file;
mod flow;
pub mod gates;
pub mod image;
mod journals;
pub mod labelings;
pub mod labels;
pub mod limits;
mod listing;
pub mod machine;
mod nodes;
mod operations;
mod parts;
mod prune;
mod raise;
mod records;
pub mod refusal;
mod replays;
mod rules;
pub mod scopes;

pub use calls::{check, registers_length, reset, run, targets_length, walk, write_port};
pub use file::{earlier, file};
pub use journals::{run_journalled, step_back};
pub use listing::listing;
pub use prune::{prune, reached};
pub use raise::{raise, with_labels};
pub use replays::replay;
pub use rules::{context_flows, flow_faults};
