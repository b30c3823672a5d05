//! The two engines that can make calls.

use super::areas::Lent;
use super::calls::Call;
use crate::answer::{Answer, Which};
#[cfg(feature = "library")]
use crate::library;
use crate::reference;
use crate::trace::Record;

pub struct Engine {
    pub check: fn(&[u8]) -> Answer,
    pub reset: fn(&[u8], &mut [u8], &mut [u8]) -> Answer,
    pub write_port: fn(&[u8], &mut [u8], u32, u32) -> Answer,
    pub run: fn(&[u8], &mut [u8], &mut [u8], u32) -> Answer,
    pub run_journalled: Journalled,
    pub step_back: Journalled,
    pub replay: Replay,
    pub prune: fn(&[u8], &mut [u8]) -> Answer,
    pub file: fn(&[u8], &mut [u8]) -> Answer,
    pub earlier: fn(&[u8], &[u8]) -> Which,
}

/// The calls on journals.
pub type Journalled = fn(&[u8], &mut [u8], &mut [u8], &mut [u8], u32) -> Answer;

pub type Replay = fn(&[u8], &mut [u8], &mut [u8], &[Record], u32) -> Answer;

#[cfg(feature = "library")]
pub const LIBRARY: Engine = Engine {
    check: library::check,
    reset: library::reset,
    write_port: library::write_port,
    run: library::run,
    run_journalled: library::run_journalled,
    step_back: library::step_back,
    replay: library::replay,
    prune: library::prune,
    file: library::file,
    earlier: library::earlier,
};

pub const REFERENCE: Engine = Engine {
    check: reference::check,
    reset: reference::reset,
    write_port: reference::write_port,
    run: reference::run,
    run_journalled: reference::run_journalled,
    step_back: reference::step_back,
    replay: reference::replay,
    prune: reference::prune,
    file: reference::file,
    earlier: reference::earlier,
};

impl Engine {
    pub fn make(&self, call: Call, image: &[u8], lent: Lent) -> Answer {
        let Lent {
            registers,
            targets,
            journal,
        } = lent;
        match call {
            Call::Reset => (self.reset)(image, registers, targets),
            Call::WritePort { register, value } => {
                (self.write_port)(image, registers, register, value)
            }
            Call::Run { cycles } => (self.run)(image, registers, targets, cycles),
            Call::RunJournalled { cycles } => {
                (self.run_journalled)(image, registers, targets, journal, cycles)
            }
            Call::StepBack { cycles } => {
                (self.step_back)(image, registers, targets, journal, cycles)
            }
        }
    }
}
