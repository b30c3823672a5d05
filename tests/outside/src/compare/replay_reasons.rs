//! Why a replay answered as it did, request E10: which record counted of several that are bad, what would have
//! followed, and how the records of an accepted trace lie. Each reason has to be met.

use super::soundness::{fault, right_lengths, Fault};
use super::tally::Tally;
use crate::answer::Answer;
use crate::reference::image::{Image, Register, PORT};
use crate::reference::limits::{MOST_CYCLES, WIDEST};
use crate::trace::Record;
use std::collections::HashMap;

/// What was lent, before the call.
pub struct Lent<'a> {
    pub image: &'a [u8],
    pub registers: &'a [u8],
    pub targets: &'a [u8],
    pub trace: &'a [Record],
    pub cycles: u32,
}

/// The lowest record of each fault.
struct Lowest {
    fall: Option<usize>,
    reach: Option<usize>,
    no_port: Option<usize>,
    too_large: Option<usize>,
}

impl Lowest {
    fn of(lent: &Lent, registers: &[Register]) -> Lowest {
        let falls = |pair: &[Record]| pair[1].cycle < pair[0].cycle;
        let find = |is: &dyn Fn(&Record) -> bool| lent.trace.iter().position(is);
        let above = |port: &Register, record: &Record| record.value > port.most();
        Lowest {
            fall: lent.trace.windows(2).position(falls).map(|place| place + 1),
            reach: find(&|record| record.cycle >= lent.cycles),
            no_port: find(&|record| port(registers, record).is_none()),
            too_large: find(&|record| {
                port(registers, record).is_some_and(|port| above(port, record))
            }),
        }
    }
}

fn port<'a>(registers: &'a [Register], record: &Record) -> Option<&'a Register> {
    let named = registers.get(record.register as usize);
    named.filter(|register| register.kind == PORT)
}

/// Refusals 13 to 15, 17 and 23, and acceptances: the image itself was not refused.
pub fn note_replay(tally: &mut Tally, lent: &Lent, answer: Answer) {
    if !matches!(answer.number, 0 | 13..=15 | 17 | 23) {
        return;
    }
    let image = Image::open(lent.image).expect("an image that is not refused");
    let registers: Vec<Register> = image.registers().collect();
    let lowest = Lowest::of(lent, &registers);
    match answer.number {
        14 => note_areas(tally, &image, lent, &lowest),
        15 => note_cycles(tally, lent, &lowest),
        23 => note_order(tally, lent, &lowest, answer.place),
        13 | 17 => note_write(tally, lent, &lowest, &registers, answer),
        _ => note_accepted(tally, lent, &registers, answer.count),
    }
}

fn note_areas(tally: &mut Tally, image: &Image, lent: &Lent, lowest: &Lowest) {
    let fitting = right_lengths(image, lent.registers, lent.targets);
    let found = fitting.then(|| fault(image, lent.registers, lent.targets));
    let found = found.flatten();
    tally.note("14 by a length", found.is_none());
    tally.note("14 by contents", found == Some(Fault::Contents));
    tally.note("14 by a target", found == Some(Fault::Target));
    tally.note("14 by a binding", found == Some(Fault::Binding));
    tally.note("14 where 15 would follow", lent.cycles > MOST_CYCLES);
    let order = lowest.fall.or(lowest.reach);
    tally.note("14 where 23 would follow", order.is_some());
    tally.note("14 where 13 would follow", lowest.no_port.is_some());
    tally.note("14 where 17 would follow", lowest.too_large.is_some());
    let nothing = lent.trace.is_empty() && lent.cycles == 0;
    tally.note("14 with no records and no cycles", nothing);
}

fn note_cycles(tally: &mut Tally, lent: &Lent, lowest: &Lowest) {
    tally.note("15 by one cycle", lent.cycles == MOST_CYCLES + 1);
    tally.note("15 with no records", lent.trace.is_empty());
    tally.note("15 where 23 by a fall would follow", lowest.fall.is_some());
    tally.note("15 where 23 by n would follow", lowest.reach.is_some());
    tally.note("15 where 13 would follow", lowest.no_port.is_some());
    tally.note("15 where 17 would follow", lowest.too_large.is_some());
}

fn note_order(tally: &mut Tally, lent: &Lent, lowest: &Lowest, place: usize) {
    let trace = lent.trace;
    let cycle = trace[place].cycle;
    let falls = lowest.fall == Some(place);
    let reaches = lowest.reach == Some(place);
    tally.note("23 by a fall", falls);
    tally.note("23 by a fall by one", {
        falls && trace[place - 1].cycle == cycle + 1
    });
    tally.note("23 by a fall to cycle 0", falls && cycle == 0);
    tally.note("23 by n", reaches && cycle == lent.cycles);
    tally.note("23 by more than n", reaches && cycle > lent.cycles);
    tally.note("23, all bits of the cycle set", cycle == u32::MAX);
    tally.note("23 with no cycles", lent.cycles == 0);
    tally.note("23 at the first record", place == 0 && trace.len() > 1);
    let last = place > 0 && place == trace.len() - 1;
    tally.note("23 at the last record, by a fall", last && falls);
    tally.note("23 at the last record, by n", last && reaches);
    tally.note("23 above place 255", place > 255);
    let later = |other: Option<usize>| other.is_some_and(|other| other > place);
    let earlier = |other: Option<usize>| other.is_some_and(|other| other < place);
    let (fall, reach) = (lowest.fall, lowest.reach);
    tally.note("23 by a fall, a later one reaches n", falls && later(reach));
    tally.note("23 by n, a later one falls", reaches && later(fall));
    let (no_port, too_large) = (lowest.no_port, lowest.too_large);
    tally.note("23 behind a 13, by a fall", falls && earlier(no_port));
    tally.note("23 behind a 13, by n", reaches && earlier(no_port));
    tally.note("23 behind a 17, by a fall", falls && earlier(too_large));
    tally.note("23 behind a 17, by n", reaches && earlier(too_large));
    tally.note("23 where a 13 is", no_port == Some(place));
    tally.note("23 where a 17 is", too_large == Some(place));
    tally.note("23 before a 13", later(no_port));
    tally.note("23 before a 17", later(too_large));
    tally.note("23 alone", no_port.or(too_large).is_none());
}

fn note_write(
    tally: &mut Tally,
    lent: &Lent,
    lowest: &Lowest,
    registers: &[Register],
    answer: Answer,
) {
    let trace = lent.trace;
    let (no_port, too_large) = (answer.number == 13, answer.number == 17);
    let place = answer.place;
    let record = trace[place];
    let number = record.register as usize;
    let later = |other: Option<usize>| other.is_some_and(|other| other > place);
    let inner = registers.get(number);
    tally.note("13 by an inner register", no_port && inner.is_some());
    tally.note("13, value too large for an inner one", {
        no_port && inner.is_some_and(|inner| record.value > inner.most())
    });
    let next = no_port && number == registers.len();
    tally.note("13 by the number of registers", next);
    for (reason, bits) in [
        ("13, a port in 8 bits of it", 0xFF),
        ("13, a port in 16 bits of it", 0xFFFF),
        ("13, a port in 30 bits of it", (1 << 30) - 1),
        ("13, a port in 31 bits of it", (1 << 31) - 1),
    ] {
        let register = record.register & bits;
        let cut = Record { register, ..record };
        tally.note(reason, no_port && port(registers, &cut).is_some());
    }
    tally.note("13 before a 17", no_port && later(lowest.too_large));
    tally.note("13 at another place than the register", {
        no_port && place != number
    });
    tally.note("13 at the first record", no_port && place == 0);
    let last = place > 0 && place == trace.len() - 1;
    tally.note("13 at the last record", no_port && last);
    let least = port(registers, &record).map(|port| port.most().wrapping_add(1));
    tally.note("17 by the least value too large", {
        too_large && least == Some(record.value)
    });
    tally.note("17 before a 13", too_large && later(lowest.no_port));
    tally.note("17 at another place than the register", {
        too_large && place != number
    });
    tally.note("17 at the first record", too_large && place == 0);
    tally.note("17 at the last record", too_large && last);
    let same = |other: &Record| (other.cycle, other.register) == (record.cycle, record.register);
    let superseded = trace[place + 1..].iter().any(same);
    tally.note("17 of a value to be superseded", too_large && superseded);
    let supersedes = trace[..place].iter().any(same);
    tally.note("17 of a value that supersedes", too_large && supersedes);
    tally.note("13 or 17 above place 255", place > 255);
}

fn note_accepted(tally: &mut Tally, lent: &Lent, registers: &[Register], superseded: usize) {
    let (trace, cycles) = (lent.trace, lent.cycles);
    let none = trace.is_empty();
    tally.note("accepted, no records, no cycles", none && cycles == 0);
    tally.note("accepted, no records, cycles", none && cycles > 0);
    let (Some(first), Some(last)) = (trace.first(), trace.last()) else {
        return;
    };
    let groups: Vec<&[Record]> = trace.chunk_by(|a, b| a.cycle == b.cycle).collect();
    tally.note("accepted, a record and one cycle", cycles == 1);
    tally.note(
        "accepted, a record in cycle 0",
        first.cycle == 0 && cycles > 1,
    );
    tally.note("accepted, none in cycle 0", first.cycle > 0);
    let at_end = last.cycle + 1 == cycles && cycles > 1;
    tally.note("accepted, a record in the last cycle", at_end);
    tally.note("accepted, none in the last cycle", last.cycle + 1 < cycles);
    let gap = groups
        .windows(2)
        .any(|pair| pair[1][0].cycle > pair[0][0].cycle + 1);
    tally.note("accepted, cycles without records between", gap);
    let every = cycles > 1 && groups.len() == cycles as usize;
    tally.note("accepted, a record before every cycle", every);
    tally.note("accepted, more than 255 records", trace.len() > 255);
    tally.note("accepted, more than 255 cycles", cycles > 255);
    let much = groups.iter().any(|group| group.len() > 64);
    tally.note("accepted, more than 64 in one cycle", much);
    let largest = |record: &Record| {
        let named = port(registers, record).expect("an accepted record");
        named.width < WIDEST && record.value == named.most()
    };
    tally.note("accepted, the largest value", trace.iter().any(largest));
    note_superseded(tally, &groups, superseded);
}

/// Of records, those of one cycle in a group.
fn note_superseded(tally: &mut Tally, groups: &[&[Record]], superseded: usize) {
    let counts = groups.iter().map(|group| {
        let mut counts: HashMap<u32, usize> = HashMap::new();
        for record in *group {
            *counts.entry(record.register).or_default() += 1;
        }
        counts
    });
    let counts: Vec<HashMap<u32, usize>> = counts.collect();
    let most = |count: &HashMap<u32, usize>| count.values().copied().max().unwrap_or(0);
    tally.note("accepted, none superseded", superseded == 0);
    tally.note("accepted, one superseded", superseded == 1);
    tally.note("accepted, three for one cycle and port", {
        counts.iter().any(|count| most(count) == 3)
    });
    tally.note("accepted, more than 255 superseded", superseded > 255);
    let cycles = counts.iter().filter(|count| most(count) > 1).count();
    tally.note("accepted, superseded in two cycles", cycles > 1);
    let ports = |count: &HashMap<u32, usize>| count.values().filter(|count| **count > 1).count();
    tally.note("accepted, two ports superseded in one cycle", {
        counts.iter().any(|count| ports(count) > 1)
    });
    let apart = counts.iter().any(|count| count.len() > 1);
    tally.note(
        "accepted, two ports, none superseded",
        apart && superseded == 0,
    );
    let again = counts.windows(2).any(|pair| {
        let mut ports = pair[0].keys();
        ports.any(|port| pair[1].contains_key(port))
    });
    tally.note(
        "accepted, one port twice, none superseded",
        again && superseded == 0,
    );
    let across = |group: &[Record]| {
        let mut triples = group.windows(3);
        triples.any(|t| t[0].register == t[2].register && t[1].register != t[0].register)
    };
    tally.note("accepted, superseded across another port", {
        groups.iter().any(|group| across(group))
    });
    let pair = |is: &dyn Fn(u32, u32) -> bool| {
        let mut pairs = groups.iter().flat_map(|group| group.windows(2));
        pairs.any(|pair| pair[0].register == pair[1].register && is(pair[0].value, pair[1].value))
    };
    let equal = pair(&|earlier, later| earlier == later);
    tally.note("accepted, superseded by an equal value", equal);
    let smaller = pair(&|earlier, later| later < earlier);
    tally.note("accepted, superseded by a smaller value", smaller);
    let larger = pair(&|earlier, later| later > earlier);
    tally.note("accepted, superseded by a larger value", larger);
}
