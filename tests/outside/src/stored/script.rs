//! Adding records one by one.

use super::record::Record;
use crate::reference::limits::MOST_PARAMETERS;
use crate::table::gates::GateTable;
use crate::table::Table;

#[derive(Default)]
pub struct Script {
    records: Vec<Record>,
}

impl Script {
    pub fn note(&mut self, sentence: &str) -> &mut Script {
        assert!(sentence.len() <= 200);
        self.add(Record::Note(sentence.to_string()))
    }

    pub fn image(&mut self, image: &[u8]) -> &mut Script {
        self.add(Record::Image(image.to_vec()))
    }

    /// The areas as they are lent, of any length.
    pub fn lent(&mut self, registers: &[u8], targets: &[u8]) -> &mut Script {
        self.add(Record::Areas(registers.to_vec(), targets.to_vec()))
    }

    /// The areas with these targets, and with no binding but 0.
    pub fn areas(&mut self, registers: &[u8], targets: &[u8]) -> &mut Script {
        self.bound(
            registers,
            targets,
            &vec![0; MOST_PARAMETERS * targets.len()],
        )
    }

    /// The areas with these targets and bindings.
    pub fn bound(&mut self, registers: &[u8], targets: &[u8], bindings: &[u8]) -> &mut Script {
        self.lent(registers, &[targets, bindings].concat())
    }

    /// The areas with these values, and with these targets.
    pub fn values(&mut self, values: &[u32], targets: &[u8]) -> &mut Script {
        let registers: Vec<u8> = values
            .iter()
            .flat_map(|value| value.to_le_bytes())
            .collect();
        self.areas(&registers, targets)
    }

    /// The design with areas of the right lengths.
    pub fn design(&mut self, table: &Table) -> &mut Script {
        self.image(&table.image());
        let (registers, targets) = table.areas();
        self.lent(&vec![0xAA; registers], &vec![0xAA; targets])
    }

    pub fn reset(&mut self) -> &mut Script {
        self.add(Record::Reset)
    }

    pub fn write(&mut self, register: u32, value: u32) -> &mut Script {
        self.add(Record::WritePort { register, value })
    }

    pub fn run(&mut self, cycles: u32) -> &mut Script {
        self.add(Record::Run(cycles))
    }

    pub fn raise(&mut self, length: usize, fill: u8) -> &mut Script {
        let length = length as u32;
        self.add(Record::Raise { length, fill })
    }

    pub fn gate_table(&mut self, table: &[u8]) -> &mut Script {
        self.add(Record::GateTable(table.to_vec()))
    }

    pub fn flipflops(&mut self, area: &[u8]) -> &mut Script {
        self.add(Record::FlipFlops(area.to_vec()))
    }

    /// The gate table with an area of the right length.
    pub fn gates(&mut self, table: &GateTable) -> &mut Script {
        self.gate_table(&table.bytes());
        self.flipflops(&vec![0xAA; table.area()])
    }

    pub fn gates_reset(&mut self) -> &mut Script {
        self.add(Record::GatesReset)
    }

    pub fn gates_cycle(&mut self, inputs: &[u8]) -> &mut Script {
        self.add(Record::GatesCycle(inputs.to_vec()))
    }

    /// The journal as it is lent, of any length.
    pub fn journal(&mut self, area: &[u8]) -> &mut Script {
        self.add(Record::Journal(area.to_vec()))
    }

    pub fn run_journalled(&mut self, cycles: u32) -> &mut Script {
        self.add(Record::RunJournalled(cycles))
    }

    pub fn step_back(&mut self, cycles: u32) -> &mut Script {
        self.add(Record::StepBack(cycles))
    }

    pub fn prune(&mut self, length: usize, fill: u8) -> &mut Script {
        let length = length as u32;
        self.add(Record::Prune { length, fill })
    }

    pub fn file(&mut self, length: usize, fill: u8) -> &mut Script {
        let length = length as u32;
        self.add(Record::File { length, fill })
    }

    /// The image is the first of the two.
    pub fn earlier(&mut self, second: &[u8]) -> &mut Script {
        self.add(Record::Earlier(second.to_vec()))
    }

    /// The design, and one cycle for each pair of values in the ports r1 and r2.
    pub fn pairs(&mut self, table: &Table, pairs: &[(u32, u32)]) {
        self.design(table).reset();
        for &(left, right) in pairs {
            self.write(1, left).write(2, right).run(1);
        }
    }

    /// The last record is of no kind.
    pub fn end(mut self) -> Vec<Record> {
        self.note("a record of another kind is the last")
            .add(Record::Bad);
        self.records
    }

    fn add(&mut self, record: Record) -> &mut Script {
        self.records.push(record);
        self
    }
}
