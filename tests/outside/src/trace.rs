//! A port trace as the host's drivers keep it, laid out as the C interface has it: request E10.

#[repr(C)]
#[derive(Clone, Copy, Debug, PartialEq, Eq)]
pub struct Record {
    /// Counted from 0 by the first cycle of the replay.
    pub cycle: u32,
    pub register: u32,
    pub value: u32,
}

impl Record {
    pub const fn new(cycle: u32, register: u32, value: u32) -> Record {
        Record {
            cycle,
            register,
            value,
        }
    }
}

/// The records before a cycle, and those from it on with their cycles recounted from it. Expects cycles that
/// do not fall.
pub fn divided(trace: &[Record], cycle: u32) -> (Vec<Record>, Vec<Record>) {
    let (before, from) = trace.split_at(trace.partition_point(|record| record.cycle < cycle));
    let recounted = from.iter().map(|&record| Record {
        cycle: record.cycle - cycle,
        ..record
    });
    (before.to_vec(), recounted.collect())
}
