//! The cycle lister: a 16-bit count and an image in, one line for each cycle out.

use super::calls::judge;
use super::machine::Machine;
use super::refusal::Refusal;
use std::fmt::Display;

pub fn listing(input: &[u8]) -> Vec<u8> {
    let text = match lines(input) {
        Ok(text) => text,
        Err(refusal) => format!("refused;{};{}\n", refusal.number, refusal.place),
    };
    text.into_bytes()
}

fn lines(input: &[u8]) -> Result<String, Refusal> {
    let (count, bytes) = input.split_at_checked(2).ok_or(Refusal::new(1, 0))?;
    let image = judge(bytes)?;
    let machine = Machine::new(&image);
    let mut registers: Vec<u32> = image.registers().map(|register| register.reset).collect();
    let mut targets = machine.reset_targets();
    let mut text = String::from("cycle;walk;registers\n");
    for cycle in 1..=u16::from_le_bytes([count[0], count[1]]) {
        let mut walk: Vec<u8> = Vec::new();
        machine.cycle(&mut registers, &mut targets, &mut walk);
        text += &format!("{cycle};{};{}\n", spaced(&walk), spaced(&registers));
    }
    Ok(text)
}

fn spaced<T: Display>(items: &[T]) -> String {
    let items: Vec<String> = items.iter().map(T::to_string).collect();
    items.join(" ")
}
