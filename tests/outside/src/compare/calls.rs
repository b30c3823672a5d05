//! Calls as data.

#[derive(Clone, Copy, Debug, PartialEq, Eq)]
pub enum Call {
    Reset,
    WritePort { register: u32, value: u32 },
    Run { cycles: u32 },
    RunJournalled { cycles: u32 },
    StepBack { cycles: u32 },
}

impl Call {
    /// The same call for one cycle, if it runs cycles.
    pub fn of_one_cycle(self) -> Option<Call> {
        match self {
            Call::Run { .. } => Some(Call::Run { cycles: 1 }),
            Call::RunJournalled { .. } => Some(Call::RunJournalled { cycles: 1 }),
            _ => None,
        }
    }
}
