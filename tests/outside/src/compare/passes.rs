//! How a raising comes about pass by pass: all bodies in reading order, each assignment raising its
//! register at once. It tells designs that take several passes from those that take one.

use crate::reference::image::{Image, Node, ASSIGN, CONSTANT, IF, READ, SEQUENCE};
use crate::reference::labels::{only, Labels};

pub struct Passes<'a> {
    labels: &'a Labels,
    commands: Vec<Node>,
    expressions: Vec<Node>,
    /// The registers' labels as far as they have risen.
    registers: Vec<u8>,
}

impl<'a> Passes<'a> {
    /// From these labels of the registers on. Gives how many passes raised some label, and the labels in
    /// the end. Expects an image that passes the checks up to 9.
    pub fn of(image: &Image, labels: &'a Labels, registers: Vec<u8>) -> (usize, Vec<u8>) {
        let mut passes = Passes {
            labels,
            commands: image.commands().collect(),
            expressions: image.expressions().collect(),
            registers,
        };
        let mut count = 0;
        loop {
            let before = passes.registers.clone();
            for state in image.states() {
                passes.command(state.command, state.label);
            }
            if passes.registers == before {
                return (count, before);
            }
            count += 1;
        }
    }

    fn command(&mut self, number: u16, context: u8) {
        let node = self.commands[usize::from(number)];
        match node.kind {
            ASSIGN => {
                let read = self.read(node.a);
                let own = self.registers[usize::from(node.which)];
                let all = only(own) | only(context) | only(read);
                self.registers[usize::from(node.which)] = self.labels.join(all);
            }
            SEQUENCE => {
                self.command(node.a, context);
                self.command(node.b, context);
            }
            IF => {
                let read = self.read(node.a);
                let inner = self.labels.join(only(context) | only(read));
                self.command(node.b, inner);
                self.command(node.c, inner);
            }
            _ => {}
        }
    }

    fn read(&self, number: u16) -> u8 {
        let node = self.expressions[usize::from(number)];
        match node.kind {
            CONSTANT => 0,
            READ => self.registers[usize::from(node.which)],
            _ => {
                let both = only(self.read(node.a)) | only(self.read(node.b));
                self.labels.join(both)
            }
        }
    }
}
