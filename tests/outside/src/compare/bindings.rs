//! Bindings that a run met, request E8: sound and unsound, along the current targets and off them, and what
//! gotos made of them. Each reason has to be met.

use super::tally::Tally;
use crate::answer::Answer;
use crate::reference::image::{Bounds, Image, Register, State, INNER};
use crate::reference::labels::{only, Labels};
use crate::reference::limits::{MOST_PARAMETERS, PARAMETER_LABEL, PARAMETER_REGISTER};
use crate::reference::machine::{Machine, Ran, Watch};

/// The areas of a run before it, of the right lengths and with values within their widths.
pub struct Before<'a> {
    pub image: Image<'a>,
    pub registers: &'a [u8],
    pub targets: &'a [u8],
}

/// A register as the parameters of a state on the way find it.
#[derive(Clone, Copy, PartialEq, Eq)]
enum Fit {
    Fits,
    Missing,
    Port,
    TooLow,
    TooHigh,
}

impl Before<'_> {
    fn bindings(&self) -> &[u8] {
        &self.targets[self.image.states().len()..]
    }

    fn of_state(&self, state: usize) -> &[u8] {
        &self.bindings()[MOST_PARAMETERS * state..][..MOST_PARAMETERS]
    }

    /// Neither 0 nor a register.
    fn is_unknown(&self, byte: u8) -> bool {
        byte != 0 && usize::from(byte) >= self.image.registers().len()
    }

    fn any_unknown(&self) -> bool {
        self.bindings().iter().any(|&byte| self.is_unknown(byte))
    }

    /// How what is bound fits each parameter of each state.
    fn fits(&self) -> Vec<Vec<Fit>> {
        let labels = Labels::judge(&self.image).expect("a lattice");
        let registers: Vec<Register> = self.image.registers().collect();
        let fit = |byte: u8, bounds: Bounds| match registers.get(usize::from(byte)) {
            None => Fit::Missing,
            Some(register) if register.kind != INNER => Fit::Port,
            Some(register) if !labels.flow(only(bounds.lower), register.label) => Fit::TooLow,
            Some(register) if !labels.flow(only(register.label), bounds.upper) => Fit::TooHigh,
            Some(_) => Fit::Fits,
        };
        let of_state = |(number, state): (usize, State)| {
            let bound = self.of_state(number).iter().zip(state.pairs().0);
            bound.map(|(&byte, &bounds)| fit(byte, bounds)).collect()
        };
        self.image.states().enumerate().map(of_state).collect()
    }
}

/// Of an answer of 0 or 14. With 14 the place is a state.
pub fn note_bindings(tally: &mut Tally, before: &Before, cycles: u32, answer: Answer) {
    let machine = Machine::new(&before.image);
    if machine.unsound_target(before.targets).is_some() {
        tally.note(
            "14 by an unsound target, an unknown binding",
            before.any_unknown(),
        );
        return;
    }
    let current = machine.current(before.targets);
    match answer.number {
        14 => note_unsound(tally, before, &current, answer.place),
        0 => {
            note_off_the_way(tally, before, &current);
            if cycles > 0 {
                note_cycle(tally, before, &machine);
            }
        }
        _ => {}
    }
}

fn note_unsound(tally: &mut Tally, before: &Before, current: &[usize], state: usize) {
    let along = current.contains(&state);
    let bound = before.of_state(state);
    let fits = &before.fits()[state];
    let unknown: Vec<usize> = (0..MOST_PARAMETERS)
        .filter(|&byte| before.is_unknown(bound[byte]))
        .collect();
    let is_unknown = !unknown.is_empty();
    tally.note(
        "14 by an unknown binding, along the targets",
        is_unknown && along,
    );
    tally.note(
        "14 by an unknown binding, off the targets",
        is_unknown && !along,
    );
    let unused = unknown.iter().any(|&byte| byte >= fits.len());
    tally.note("14 by an unknown binding of no parameter", unused);
    let count = before.image.registers().len();
    let least = unknown
        .iter()
        .any(|&byte| usize::from(bound[byte]) == count);
    tally.note("14 by the number of registers as a binding", least);
    let found = |fit: Fit| !is_unknown && fits.contains(&fit);
    tally.note("14 by a port bound", found(Fit::Port));
    tally.note(
        "14 by a label not above its lower bound",
        found(Fit::TooLow),
    );
    tally.note(
        "14 by a label not below its upper bound",
        found(Fit::TooHigh),
    );
    tally.note("14 by 0 where there is no register", found(Fit::Missing));
    let second = !is_unknown && fits[0] == Fit::Fits;
    tally.note("14 by a second binding", second);
    let higher = |other: usize| {
        let unknown = before
            .of_state(other)
            .iter()
            .any(|&byte| before.is_unknown(byte));
        other > state && unknown
    };
    let behind = (0..before.image.states().len()).any(higher);
    tally.note(
        "14 by a register that does not fit, behind it an unknown one",
        !is_unknown && behind,
    );
}

fn note_off_the_way(tally: &mut Tally, before: &Before, current: &[usize]) {
    let (mut port, mut outside, mut unused) = (false, false, false);
    for (state, fits) in before.fits().into_iter().enumerate() {
        let along = current.contains(&state);
        port |= !along && fits.contains(&Fit::Port);
        outside |= !along && (fits.contains(&Fit::TooLow) || fits.contains(&Fit::TooHigh));
        unused |= before.of_state(state)[fits.len()..]
            .iter()
            .any(|&byte| byte != 0);
    }
    tally.note("accepted, a port bound off the targets", port);
    tally.note("accepted, out of its bounds off the targets", outside);
    tally.note("accepted, a binding of no parameter", unused);
}

/// What a cycle did with parameters.
#[derive(Default)]
struct Met {
    ran: Vec<Ran>,
    /// The byte that named a register, the register, and the value.
    assignments: Vec<(u8, u8, u32)>,
    goto: Option<(u8, [u8; MOST_PARAMETERS])>,
}

impl Watch for Met {
    fn state(&mut self, ran: Ran) {
        self.ran.push(ran);
    }

    fn assignment(&mut self, byte: u8, register: u8, value: u32) {
        self.assignments.push((byte, register, value));
    }

    fn goto(&mut self, state: u8, arguments: [u8; MOST_PARAMETERS]) {
        self.goto = Some((state, arguments));
    }
}

fn note_cycle(tally: &mut Tally, before: &Before, machine: &Machine) {
    let (values, _) = before.registers.as_chunks::<4>();
    let mut values: Vec<u32> = values
        .iter()
        .map(|value| u32::from_le_bytes(*value))
        .collect();
    let mut targets = before.targets.to_vec();
    let mut met = Met::default();
    machine.cycle(&mut values, &mut targets, &mut met);
    let states: Vec<State> = before.image.states().collect();
    let registers: Vec<Register> = before.image.registers().collect();
    let counts = |count: usize| {
        let bound = |ran: &Ran| ran.bound.iter().flatten().count();
        met.ran.iter().any(|ran| bound(ran) == count)
    };
    tally.note("accepted, a state ran with one parameter", counts(1));
    tally.note("accepted, a state ran with two parameters", counts(2));
    let by_binding = |ran: &Ran| states[usize::from(ran.state)].label >= PARAMETER_LABEL;
    tally.note(
        "accepted, a state ran with a bound label",
        met.ran.iter().any(by_binding),
    );
    let through = |number: u8, cut: bool| {
        met.assignments.iter().any(|&(byte, register, value)| {
            let most = registers[usize::from(register)].most();
            byte == PARAMETER_REGISTER + number && (value > most) == cut
        })
    };
    tally.note("accepted, an assignment to a parameter", through(0, false));
    tally.note(
        "accepted, an assignment to a parameter, cut",
        through(0, true) || through(1, true),
    );
    tally.note("accepted, an assignment to the second", through(1, false));
    note_goto(tally, before, &met, &states, &targets);
}

fn note_goto(tally: &mut Tally, before: &Before, met: &Met, states: &[State], after: &[u8]) {
    let (named, arguments) = met.goto.expect("every cycle ends by a goto");
    let named = usize::from(named);
    let count = usize::from(states[named].count);
    let after = &after[states.len()..];
    let (old, new) = (before.of_state(named), &after[MOST_PARAMETERS * named..]);
    let passed = |argument: u8| argument >= PARAMETER_REGISTER;
    tally.note("accepted, one bound", count == 1 && old[0] != new[0]);
    tally.note(
        "accepted, two bound",
        count == 2 && old[0] != new[0] && old[1] != new[1],
    );
    let on = arguments[..count].iter().any(|&argument| passed(argument));
    tally.note("accepted, a parameter passed on", on);
    let exchanged = count == 2 && old[0] != old[1] && [new[0], new[1]] == [old[1], old[0]];
    let exchanged = exchanged && arguments.iter().all(|&argument| passed(argument));
    tally.note("accepted, two parameters exchanged", exchanged);
    tally.note(
        "accepted, one bound, the second byte not 0",
        count == 1 && old[1] != 0,
    );
    // Descendants keep their bindings, though not their targets.
    let below = |state: usize| {
        let mut up = state;
        while up > named {
            up = usize::from(states[up].parent);
        }
        state > named && up == named
    };
    let kept = (0..states.len()).any(|state| {
        let bound = states[state].count > 0 && before.of_state(state)[0] != 0;
        bound && below(state)
    });
    tally.note("accepted, a binding kept below the state gone to", kept);
    let off = (1..states.len()).any(|state| before.of_state(state)[0] != 0 && state != named);
    tally.note("accepted, a binding kept elsewhere", off);
}
