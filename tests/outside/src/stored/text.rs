//! The records run on the reference, and what is printed of them.

use super::record::Record;
use crate::answer::Answer;
use crate::compare::engine::Journalled;
use crate::reference::{self, gates};

#[derive(Default)]
struct Lent {
    image: Vec<u8>,
    registers: Vec<u8>,
    targets: Vec<u8>,
    table: Vec<u8>,
    flipflops: Vec<u8>,
    journal: Vec<u8>,
}

pub fn of(records: &[Record]) -> String {
    let mut lent = Lent::default();
    records.iter().map(|record| lent.follow(record)).collect()
}

impl Lent {
    fn follow(&mut self, record: &Record) -> String {
        match record {
            Record::Note(text) => format!("# {text}\n"),
            Record::Image(image) => {
                self.image = image.clone();
                answered("check", reference::check(image))
            }
            Record::Areas(registers, targets) => {
                self.registers = registers.clone();
                self.targets = targets.clone();
                String::new()
            }
            Record::Reset => {
                let answer = reference::reset(&self.image, &mut self.registers, &mut self.targets);
                answered("reset", answer) + &self.areas()
            }
            Record::WritePort { register, value } => {
                let (register, value) = (*register, *value);
                let answer =
                    reference::write_port(&self.image, &mut self.registers, register, value);
                answered(&format!("write {register} {value}"), answer) + &self.areas()
            }
            Record::Run(cycles) => {
                let (registers, targets) = (&mut self.registers, &mut self.targets);
                let answer = reference::run(&self.image, registers, targets, *cycles);
                answered(&format!("run {cycles}"), answer) + &self.areas()
            }
            Record::Raise { length, fill } => {
                let mut out = vec![*fill; *length as usize];
                let answer = reference::raise(&self.image, &mut out);
                answered(&format!("raise {length}"), answer) + &line("out", &out)
            }
            Record::GateTable(table) => {
                self.table = table.clone();
                answered("gates check", gates::check(table))
            }
            Record::FlipFlops(area) => {
                self.flipflops = area.clone();
                String::new()
            }
            Record::GatesReset => {
                let answer = gates::reset(&self.table, &mut self.flipflops);
                answered("gates reset", answer) + &line("flipflops", &self.flipflops)
            }
            Record::GatesCycle(inputs) => {
                let answer = gates::cycle(&self.table, inputs, &mut self.flipflops);
                answered("gates cycle", answer) + &line("flipflops", &self.flipflops)
            }
            Record::Journal(area) => {
                self.journal = area.clone();
                String::new()
            }
            Record::RunJournalled(cycles) => {
                self.journalled("journal", reference::run_journalled, *cycles)
            }
            Record::StepBack(cycles) => self.journalled("back", reference::step_back, *cycles),
            Record::Prune { length, fill } => {
                let mut out = vec![*fill; *length as usize];
                let answer = reference::prune(&self.image, &mut out);
                answered(&format!("prune {length}"), answer) + &line("out", &out)
            }
            Record::File { length, fill } => {
                let mut out = vec![*fill; *length as usize];
                let answer = reference::file(&self.image, &mut out);
                answered(&format!("file {length}"), answer) + &line("out", &out)
            }
            Record::Earlier(second) => {
                let which = reference::earlier(&self.image, second);
                format!("earlier: {} {}\n", which.second, which.len)
            }
            Record::Bad => "bad record\n".to_string(),
        }
    }

    fn journalled(&mut self, name: &str, call: Journalled, cycles: u32) -> String {
        let Lent {
            image,
            registers,
            targets,
            journal,
            ..
        } = self;
        let answer = call(image, registers, targets, journal, cycles);
        answered(&format!("{name} {cycles}"), answer)
            + &self.areas()
            + &line("journal", &self.journal)
    }

    fn areas(&self) -> String {
        line("registers", &self.registers) + &line("targets", &self.targets)
    }
}

fn answered(call: &str, answer: Answer) -> String {
    format!(
        "{call}: {} {} {}\n",
        answer.number, answer.place, answer.count
    )
}

fn line(name: &str, bytes: &[u8]) -> String {
    let numbers: String = bytes.iter().map(|byte| format!(" {byte}")).collect();
    format!("  {name}{numbers}\n")
}
