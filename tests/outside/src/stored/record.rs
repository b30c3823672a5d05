//! A record: a kind, two numbers and what follows them. `crates/cases/src/main.rt` has the format.

pub enum Record {
    Note(String),
    Image(Vec<u8>),
    Areas(Vec<u8>, Vec<u8>),
    Reset,
    WritePort {
        register: u32,
        value: u32,
    },
    Run(u32),
    /// Raises the image into an area of so many bytes, each of which is this before.
    Raise {
        length: u32,
        fill: u8,
    },
    GateTable(Vec<u8>),
    FlipFlops(Vec<u8>),
    GatesReset,
    /// A cycle with these values of the inputs.
    GatesCycle(Vec<u8>),
    Journal(Vec<u8>),
    RunJournalled(u32),
    StepBack(u32),
    /// Prunes the image into an area of so many bytes, each of which is this before.
    Prune {
        length: u32,
        fill: u8,
    },
    /// Files the image into an area of so many bytes, each of which is this before.
    File {
        length: u32,
        fill: u8,
    },
    /// The earlier of the image and this second one.
    Earlier(Vec<u8>),
    /// A record of no kind.
    Bad,
}

impl Record {
    pub fn bytes(&self) -> Vec<u8> {
        match self {
            Record::Note(text) => record(0, text.len() as u32, 0, &[text.as_bytes()]),
            Record::Image(image) => record(1, image.len() as u32, 0, &[image]),
            Record::Areas(registers, targets) => {
                let lengths = (registers.len() as u32, targets.len() as u32);
                record(2, lengths.0, lengths.1, &[registers, targets])
            }
            Record::Reset => record(3, 0, 0, &[]),
            Record::WritePort { register, value } => record(4, *register, *value, &[]),
            Record::Run(cycles) => record(5, *cycles, 0, &[]),
            Record::Raise { length, fill } => record(6, *length, (*fill).into(), &[]),
            Record::GateTable(table) => record(7, table.len() as u32, 0, &[table]),
            Record::FlipFlops(area) => record(8, area.len() as u32, 0, &[area]),
            Record::GatesReset => record(9, 0, 0, &[]),
            Record::GatesCycle(inputs) => record(10, inputs.len() as u32, 0, &[inputs]),
            Record::Journal(area) => record(11, area.len() as u32, 0, &[area]),
            Record::RunJournalled(cycles) => record(12, *cycles, 0, &[]),
            Record::StepBack(cycles) => record(13, *cycles, 0, &[]),
            Record::Prune { length, fill } => record(14, *length, (*fill).into(), &[]),
            Record::File { length, fill } => record(15, *length, (*fill).into(), &[]),
            Record::Earlier(second) => record(16, second.len() as u32, 0, &[second]),
            Record::Bad => record(17, 0, 0, &[]),
        }
    }
}

fn record(kind: u8, a: u32, b: u32, behind: &[&[u8]]) -> Vec<u8> {
    let mut bytes = vec![kind];
    bytes.extend(a.to_le_bytes());
    bytes.extend(b.to_le_bytes());
    bytes.extend(behind.concat());
    bytes
}
