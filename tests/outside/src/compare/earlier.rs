//! Pairs of images of which an engine and the reference hand back the earlier, either way round. What request E12
//! says of forms and their order is also asked of the engine itself.

use super::difference::Difference;
use super::engine::{Engine, REFERENCE};
use super::tally::Tally;
use crate::answer::Which;
use crate::generate::change::{changed, Change, CHANGES};
use crate::generate::edit::edited;
use crate::generate::random::Random;
use crate::generate::{any_design, faults, renumbered, Size};
use crate::reference::refusal;
use crate::table::Table;
use crate::{designs, reference};
use std::cmp::Ordering;

/// The sections of an image, behind its directory.
const SECTIONS: [&str; 6] = [
    "forms differ first in the directory",
    "forms differ first in the labels",
    "forms differ first in the registers",
    "forms differ first in the states",
    "forms differ first in the commands",
    "forms differ first in the expressions",
];

const SAME_BYTES: &str = "pair, the same bytes";
const ONE_SLICE: &str = "pair, one slice lent twice";
const RENUMBERED: &str = "pair, other numbers";
const ITS_FORM: &str = "pair, an image and its form";
const NEW_BODIES: &str = "pair, new bodies in some states";
const ANOTHER: &str = "pair, another design";
const REFUSED: &str = "pair, one spoiled";
const DAMAGED: &str = "pair, one damaged";
const BOTH_REFUSED: &str = "pair, both spoiled";

#[derive(Default)]
pub struct Pairs {
    tally: Tally,
    compared: u64,
}

impl Pairs {
    pub fn print(&self) {
        println!("earlier: {} pairs compared", self.compared);
        self.tally.print_reasons();
    }

    pub fn missing(&self) -> Vec<String> {
        let mut missing = self.tally.missing_reasons();
        if self.compared == 0 {
            missing.push("pairs".to_string());
        }
        missing
    }

    /// Both ways round.
    fn compare(
        &mut self,
        engine: &Engine,
        kind: &'static str,
        one: &[u8],
        other: &[u8],
    ) -> Result<(), Difference> {
        self.tally.note(kind, true);
        self.one_way(engine, kind, one, other)?;
        self.one_way(engine, kind, other, one)
    }

    fn one_way(
        &mut self,
        engine: &Engine,
        kind: &'static str,
        first: &[u8],
        second: &[u8],
    ) -> Result<(), Difference> {
        let lent = [first, second].map(|image| image.to_vec().into_boxed_slice());
        let given = match kind {
            ONE_SLICE => (engine.earlier)(&lent[0], &lent[0]),
            _ => (engine.earlier)(&lent[0], &lent[1]),
        };
        let expected = (REFERENCE.earlier)(first, second);
        let differ = |why: &str| {
            let what = format!(
                "earlier, {kind}, of {} and {} bytes{why}",
                first.len(),
                second.len()
            );
            Err(Difference::new(
                &[first, second].concat(),
                &what,
                given,
                expected,
            ))
        };
        if given != expected {
            return differ("");
        }
        if *lent[0] != *first || *lent[1] != *second {
            return differ(": another byte in an image");
        }
        self.compared += 1;
        let forms = [first, second].map(|image| own_form(engine, image));
        let [Some(one), Some(other)] = forms else {
            note_refused(&mut self.tally, [first, second]);
            return match given {
                Which::REFUSED => Ok(()),
                _ => differ(": one is handed back, and filing refuses one"),
            };
        };
        if u32::from(one > other) != given.second {
            return differ(": not the one whose form comes first, by both");
        }
        let table = |image| Table::open(image).expect("an accepted image");
        if table(first).is_renumbered(&table(second)) != (one == other) {
            return differ(": one form of two designs, or two of one, by both");
        }
        note_forms(&mut self.tally, [first, second], [&one, &other]);
        Ok(())
    }

    /// The pairs that need no chance: the worked designs, and such as differ in one constant alone.
    pub fn worked(&mut self, engine: &Engine) -> Result<(), Difference> {
        let worked = designs::worked();
        let constants = [1, 2, 256, 1 << 24, 1 << 31, (1 << 31) + 1].map(assigning);
        let tables = worked.iter().chain(&constants);
        let images: Vec<Vec<u8>> = tables.map(Table::image).collect();
        for one in &images {
            self.compare(engine, ONE_SLICE, one, one)?;
            self.compare(engine, REFUSED, one, &[])?;
            for other in &images {
                let kind = if one == other { SAME_BYTES } else { ANOTHER };
                self.compare(engine, kind, one, other)?;
                // One is a proper beginning of the other, and so refused.
                let longer = [&one[..], other].concat();
                self.compare(engine, REFUSED, one, &longer)?;
            }
        }
        let lease = designs::lease().image();
        for length in 0..lease.len() {
            self.one_way(engine, REFUSED, &lease, &lease[..length])?;
        }
        Ok(())
    }

    /// A design beside others that are like it.
    pub fn of_design(
        &mut self,
        engine: &Engine,
        table: &Table,
        random: &mut Random,
    ) -> Result<(), Difference> {
        let image = table.image();
        self.compare(engine, SAME_BYTES, &image, &image)?;
        self.compare(engine, ONE_SLICE, &image, &image)?;
        for _ in 0..3 {
            let other = renumbered(table, random).image();
            self.compare(engine, RENUMBERED, &image, &other)?;
        }
        if let Some(form) = own_form(engine, &image) {
            self.compare(engine, ITS_FORM, &image, &form)?;
        }
        for change in CHANGES {
            let other = changed(table, change, random);
            self.tally.note(name(change), false);
            if let Some(other) = other {
                let numbered = renumbered(&other, random);
                self.compare(engine, name(change), &image, &numbered.image())?;
            }
        }
        let states: Vec<usize> = (0..table.states.len())
            .filter(|_| random.percent(30))
            .collect();
        let other = edited(table, &states, random).image();
        self.compare(engine, NEW_BODIES, &image, &other)?;
        let size = Size::random(random);
        let other = any_design(random, size).image();
        self.compare(engine, ANOTHER, &image, &other)?;
        self.of_refused(engine, table, &other, random)
    }

    fn of_refused(
        &mut self,
        engine: &Engine,
        table: &Table,
        other: &[u8],
        random: &mut Random,
    ) -> Result<(), Difference> {
        let mut spoiled = || match *random.pick(refusal::IMAGE) {
            1 => faults::spoil_directory(table, random),
            number => faults::spoiled(table, &[number], random).image(),
        };
        let (one, two) = (spoiled(), spoiled());
        self.compare(engine, REFUSED, &table.image(), &one)?;
        self.compare(engine, REFUSED, other, &two)?;
        self.compare(engine, BOTH_REFUSED, &one, &two)?;
        self.compare(engine, BOTH_REFUSED, &one, &one)?;
        let damaged = faults::damaged(table.image(), random);
        self.compare(engine, DAMAGED, &table.image(), &damaged)?;
        let resized = faults::resized(table.image(), random);
        self.compare(engine, DAMAGED, &table.image(), &resized)?;
        let senseless = faults::senseless(random);
        self.compare(engine, DAMAGED, &table.image(), &senseless)
    }
}

/// The constant is the last expression, and so the last bytes of the form.
fn assigning(value: u32) -> Table {
    let mut table = Table::new(&[1]);
    let register = table.inner(0, 0, 32);
    let body = table.fall();
    table.state(0, 0, body);
    let constant = table.constant(value);
    let assign = table.assign(register, constant);
    let go = table.goto(1);
    let body = table.sequence(assign, go);
    table.state(0, 0, body);
    table
}

/// The form as the engine files it, if it accepts the image.
fn own_form(engine: &Engine, image: &[u8]) -> Option<Vec<u8>> {
    let mut form = vec![0xAA; image.len()];
    let answer = (engine.file)(image, &mut form);
    (answer.number == 0).then_some(form)
}

fn name(change: Change) -> &'static str {
    match change {
        Change::Row => "pair, other flows between labels",
        Change::RegisterLabel => "pair, another label of a register",
        Change::RegisterKind => "pair, an inner register for a port",
        Change::Reset => "pair, another reset value",
        Change::Width => "pair, another width",
        Change::StateLabel => "pair, another label of a state",
        Change::Bounds => "pair, another bound of a parameter",
        Change::Constant => "pair, another constant",
        Change::Named => "pair, another register, state or operation in a node",
        Change::Argument => "pair, another argument of a goto",
        Change::Parts => "pair, the parts of a node exchanged",
        Change::Bodies => "pair, the bodies of two states exchanged",
    }
}

fn note_refused(tally: &mut Tally, images: [&[u8]; 2]) {
    let accepted = images.map(|image| reference::check(image).number == 0);
    tally.note("refused, the first alone", accepted == [false, true]);
    tally.note("refused, the second alone", accepted == [true, false]);
    tally.note("refused, both", accepted == [false, false]);
    let first_bytes = images[0] < images[1];
    let second_alone = accepted == [true, false];
    tally.note(
        "refused, the second alone, and its bytes come first",
        second_alone && !first_bytes,
    );
    tally.note(
        "refused, no bytes",
        images.iter().any(|image| image.is_empty()),
    );
}

fn note_forms(tally: &mut Tally, [first, second]: [&[u8]; 2], [one, other]: [&Vec<u8>; 2]) {
    let order = one.cmp(other);
    let as_lent = first.cmp(second);
    tally.note(
        "equal forms of the same bytes",
        order.is_eq() && as_lent.is_eq(),
    );
    tally.note(
        "equal forms, as lent the first comes first",
        order.is_eq() && as_lent.is_lt(),
    );
    tally.note(
        "equal forms, as lent the second comes first",
        order.is_eq() && as_lent.is_gt(),
    );
    let (earlier, later) = match order {
        Ordering::Equal => return,
        Ordering::Less => (one, other),
        Ordering::Greater => (other, one),
    };
    tally.note("the first is earlier", order.is_lt());
    tally.note(
        "the first is earlier, and later as lent",
        order.is_lt() && as_lent.is_gt(),
    );
    tally.note("the second is earlier", order.is_gt());
    tally.note(
        "the second is earlier, and later as lent",
        order.is_gt() && as_lent.is_lt(),
    );
    tally.note("the earlier is longer", earlier.len() > later.len());
    tally.note("the earlier is shorter", earlier.len() < later.len());
    let mut bytes = earlier.iter().zip(later);
    let place = bytes.position(|(one, other)| one != other);
    // Two accepted images: a proper beginning would have another directory.
    let place = place.expect("neither form is a beginning of the other");
    let signed = |form: &[u8]| form[place].cast_signed();
    tally.note(
        "as signed bytes they differ otherwise",
        signed(earlier) > signed(later),
    );
    let last_byte = place + 1 == earlier.len();
    tally.note("forms of one length differ in the last byte", last_byte);
    for (number, section) in SECTIONS.iter().enumerate() {
        tally.note(section, section_of(earlier, place) == number);
    }
}

/// The number of the section that the byte is in, 0 for the directory.
fn section_of(form: &[u8], place: usize) -> usize {
    let starts =
        (0..5).map(|section| u16::from_le_bytes([form[4 * section], form[4 * section + 1]]));
    starts.filter(|&start| usize::from(start) <= place).count()
}
