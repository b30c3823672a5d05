//! Why a call answered as it did, where the number alone does not tell: several faults at once, of
//! which one counts, and values on either side of a width. Each reason has to be met.

use super::bindings::{note_bindings, Before};
use super::calls::Call;
use super::children::note_walk;
use super::journal_reasons::{note_run_journalled, note_step_back};
use super::operands::note_operands;
use super::tally::Tally;
use crate::answer::Answer;
use crate::reference::image::{Image, Register, PORT};
use crate::reference::limits::{MOST_CYCLES, TARGET_BYTES, WIDEST};
use crate::reference::machine::Machine;

/// Refusal 3, by the field that breaks it.
pub fn note_register(tally: &mut Tally, bytes: &[u8], answer: Answer) {
    let image = Image::open(bytes).ok().filter(|_| answer.number == 3);
    let Some(image) = image else {
        return;
    };
    let Some(register) = image.registers().nth(answer.place) else {
        return;
    };
    let known = usize::from(register.label) < image.rows().len() && register.kind <= PORT;
    let wide = (1..=WIDEST).contains(&register.width);
    tally.note("3 by label or kind", !known);
    tally.note("3 by width", known && !wide);
    tally.note("3 by reset value", known && wide);
}

/// The areas as they were lent, before the call.
pub struct Lent<'a> {
    pub image: &'a [u8],
    pub registers: &'a [u8],
    pub targets: &'a [u8],
    pub journal: &'a [u8],
}

/// What stood in the areas.
struct Contents {
    /// The lowest register with a value too large.
    too_large: Option<usize>,
    /// The lengths are right.
    fitting: bool,
}

/// Refusals 13 to 17, 21 and 22, and acceptances: the image itself was not refused.
pub fn note_call(tally: &mut Tally, call: Call, lent: &Lent, answer: Answer) {
    if !matches!(answer.number, 0 | 13..=15 | 17 | 21 | 22) {
        return;
    }
    let image = Image::open(lent.image).expect("an image that is not refused");
    match call {
        Call::Reset => {
            let contents = Contents::of(&image, lent, true);
            let repaired = answer.number == 0 && contents.too_large.is_some();
            tally.note("accepted with contents too large", repaired);
        }
        Call::WritePort { register, value } => {
            let write = (register as usize, value);
            note_write(tally, &image, lent, write, answer);
        }
        Call::Run { cycles } => note_run(tally, &image, lent, cycles, answer),
        Call::RunJournalled { cycles } => note_run_journalled(tally, &image, lent, cycles, answer),
        Call::StepBack { cycles } => note_step_back(tally, &image, lent, cycles, answer),
    }
}

fn note_run(tally: &mut Tally, image: &Image, lent: &Lent, cycles: u32, answer: Answer) {
    let contents = Contents::of(image, lent, true);
    let by_contents = contents.explain(answer);
    tally.note("14 by length, contents too large", contents.hidden());
    tally.note("14 by contents", by_contents);
    tally.note("14 by contents, no cycles", by_contents && cycles == 0);
    tally.note(
        "14 by contents, too many cycles",
        by_contents && cycles > MOST_CYCLES,
    );
    if contents.fitting && contents.too_large.is_none() {
        let before = Before {
            image: *image,
            registers: lent.registers,
            targets: lent.targets,
        };
        note_bindings(tally, &before, cycles, answer);
    }
    let unsound = || Machine::new(image).unsound_target(lent.targets).is_some();
    tally.note(
        "14 by contents, an unsound target",
        by_contents && unsound(),
    );
    let by_target = answer.number == 14 && contents.fitting && !by_contents && unsound();
    tally.note("14 by an unsound target", by_target);
    if answer.number == 0 && cycles > 0 {
        note_operands(tally, image, lent.registers, lent.targets);
        note_walk(tally, lent.image, lent.registers, lent.targets);
    }
}

fn note_write(
    tally: &mut Tally,
    image: &Image,
    lent: &Lent,
    (number, value): (usize, u32),
    answer: Answer,
) {
    let contents = Contents::of(image, lent, false);
    let by_contents = contents.explain(answer);
    let named = |is: &dyn Fn(Register) -> bool| image.registers().nth(number).is_some_and(is);
    let is_port = named(&|register| register.kind == PORT);
    let above = named(&|register| value > register.most());
    tally.note("14 by length, contents too large", contents.hidden());
    tally.note("14 by contents", by_contents);
    tally.note("14 by contents, no port", by_contents && !is_port);
    tally.note(
        "14 by contents, port value too large",
        by_contents && is_port && above,
    );
    let own = by_contents && contents.too_large == Some(number) && is_port && !above;
    tally.note("14 by contents of the port itself", own);
    tally.note(
        "13, value too large for an inner one",
        answer.number == 13 && above,
    );
    let largest = named(&|register| register.width < WIDEST && value == register.most());
    tally.note("accepted, the largest value", answer.number == 0 && largest);
    let next = named(&|register| value.checked_sub(1) == Some(register.most()));
    tally.note("17, the least value too large", answer.number == 17 && next);
}

impl Contents {
    fn of(image: &Image, lent: &Lent, takes_targets: bool) -> Contents {
        let (values, _) = lent.registers.as_chunks::<4>();
        let mut pairs = image.registers().zip(values);
        let fitting = lent.registers.len() == 4 * image.registers().len()
            && (!takes_targets || lent.targets.len() == TARGET_BYTES * image.states().len());
        Contents {
            too_large: pairs
                .position(|(register, bytes)| u32::from_le_bytes(*bytes) > register.most()),
            fitting,
        }
    }

    /// The answer speaks of the contents.
    fn explain(&self, answer: Answer) -> bool {
        answer.number == 14 && self.fitting && self.too_large == Some(answer.place)
    }

    /// A wrong length, and a value too large at another place than a wrong length's.
    fn hidden(&self) -> bool {
        !self.fitting && self.too_large.is_some_and(|register| register > 0)
    }
}
