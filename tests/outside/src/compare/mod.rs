//! The comparison of the proved library, and of the lister, with the reference.

pub mod areas;
pub mod arguments;
pub mod bindings;
pub mod calls;
pub mod chance;
pub mod children;
pub mod difference;
mod earlier;
pub mod edits;
pub mod engine;
pub mod filed;
mod filed_runs;
pub mod filing;
pub mod gate_reasons;
pub mod groups;
pub mod independence;
pub mod journal_chance;
mod journal_reasons;
pub mod kinds;
pub mod listings;
mod matching;
pub mod operands;
pub mod parameter_rules;
pub mod parameters;
pub mod passes;
pub mod pruned;
mod pruned_runs;
pub mod pruning;
pub mod raised;
pub mod reading;
pub mod reasons;
pub mod replay_chance;
pub mod replay_independence;
mod replay_reasons;
pub mod replays;
mod soundness;
pub mod tally;
mod view;
mod written;

#[cfg(feature = "library")]
pub mod check;
#[cfg(feature = "library")]
mod gate_cycles;
#[cfg(feature = "library")]
pub mod gate_independence;
#[cfg(feature = "library")]
pub mod gates;
#[cfg(feature = "library")]
pub mod lists;
#[cfg(feature = "library")]
pub mod raising;
