//! Demand 3 of gate tables tried on the library: two runs that are equal in marks and trusted values, fed
//! inputs that are equal where marked trusted, stay so.

use super::difference::Difference;
use crate::generate::gates::*;
use crate::generate::random::Random;
use crate::library;
use crate::reference::gates::{TRUSTED, UNTRUSTED};
use crate::reference::limits::PAIR_BYTES;
use crate::table::gates::GateTable;

/// What was tried, and that the test could have failed.
#[derive(Default)]
pub struct GateFindings {
    pub pairs: u64,
    pub cycles: u64,
    /// Pairs in which an untrusted value differed after some cycle.
    pub hidden_differences: u64,
    /// Pairs in which a flip-flop became trusted while untrusted inputs differed.
    pub became_trusted: u64,
    /// Pairs with a trusted input that was made to differ, and how many were seen to.
    pub altered: u64,
    pub altered_seen: u64,
}

impl GateFindings {
    pub fn print(&self) {
        println!(
            "{} pairs of runs of gates, {} cycles: marks and trusted values equal",
            self.pairs, self.cycles
        );
        println!(
            "  in {} of them untrusted values differed, in {} a flip-flop became trusted",
            self.hidden_differences, self.became_trusted
        );
        println!(
            "  {} of {} pairs with a trusted input made to differ were seen to differ",
            self.altered_seen, self.altered
        );
    }

    /// Whether a difference could have been found.
    pub fn able(&self) -> bool {
        ![
            self.hidden_differences,
            self.became_trusted,
            self.altered_seen,
        ]
        .contains(&0)
    }
}

pub fn gate_pairs_of_seed(seed: u64, findings: &mut GateFindings) -> Result<(), Difference> {
    let mut random = Random::new(seed);
    let counts = gate_counts(&mut random);
    let table = gate_table(&mut random, counts);
    for _ in 0..4 {
        try_pair(&table, &mut random, findings)?;
        try_altered(&table, &mut random, findings)?;
    }
    Ok(())
}

/// Two areas with the same marks, and the same values where these are trusted.
fn starts(table: &GateTable, bytes: &[u8], random: &mut Random) -> [Vec<u8>; 2] {
    let mut one = gate_area(random, table);
    if random.percent(50) {
        let answer = library::gates_reset(bytes, &mut one);
        assert_eq!(answer.number, 0, "a generated table is accepted");
    }
    let mut other = one.clone();
    for pair in other.chunks_mut(PAIR_BYTES) {
        if pair[1] == UNTRUSTED {
            pair[0] = random.below(2) as u8;
        }
    }
    [one, other]
}

/// Two lists of inputs for one cycle, the same where the table marks them trusted.
fn inputs(table: &GateTable, random: &mut Random) -> [Vec<u8>; 2] {
    let one = gate_inputs(random, table.inputs.len());
    let mut other = one.clone();
    for (value, &mark) in other.iter_mut().zip(&table.inputs) {
        if mark == UNTRUSTED {
            *value = random.below(2) as u8;
        }
    }
    [one, other]
}

/// The mark of each flip-flop, with its value where that is trusted.
fn seen(area: &[u8]) -> Vec<(u8, Option<u8>)> {
    let pairs = area.chunks(PAIR_BYTES);
    pairs
        .map(|pair| (pair[1], (pair[1] == TRUSTED).then_some(pair[0])))
        .collect()
}

fn cycle(bytes: &[u8], inputs: &[u8], area: &mut [u8]) {
    let answer = library::gates_cycle(bytes, inputs, area);
    assert_eq!(answer.number, 0, "a generated table runs");
}

fn try_pair(
    table: &GateTable,
    random: &mut Random,
    findings: &mut GateFindings,
) -> Result<(), Difference> {
    let bytes = table.bytes();
    let [mut one, mut other] = starts(table, &bytes, random);
    let (mut hidden, mut trusted) = (false, false);
    for _ in 0..random.between(1, 40) {
        let lent = inputs(table, random);
        let before = seen(&one);
        cycle(&bytes, &lent[0], &mut one);
        cycle(&bytes, &lent[1], &mut other);
        findings.cycles += 1;
        if seen(&one) != seen(&other) {
            let what = format!("runs that match, inputs {lent:?}: areas {one:?} and {other:?}");
            return Err(Difference::new(&bytes, &what, "one", "the other"));
        }
        hidden |= one != other;
        let became =
            |(before, now): (&(u8, _), &(u8, _))| before.0 == UNTRUSTED && now.0 == TRUSTED;
        trusted |= lent[0] != lent[1] && before.iter().zip(&seen(&one)).any(became);
    }
    findings.pairs += 1;
    findings.hidden_differences += u64::from(hidden);
    findings.became_trusted += u64::from(trusted);
    Ok(())
}

/// One trusted input differs in the first cycle; all else matches.
fn try_altered(
    table: &GateTable,
    random: &mut Random,
    findings: &mut GateFindings,
) -> Result<(), Difference> {
    let numbers = 0..table.inputs.len();
    let trusted: Vec<usize> = numbers
        .filter(|&input| table.inputs[input] == TRUSTED)
        .collect();
    if trusted.is_empty() {
        return Ok(());
    }
    let bytes = table.bytes();
    let [mut one, mut other] = starts(table, &bytes, random);
    let mut differs = false;
    for number in 0..20 {
        let mut lent = inputs(table, random);
        if number == 0 {
            lent[1][*random.pick(&trusted)] ^= 1;
        }
        cycle(&bytes, &lent[0], &mut one);
        cycle(&bytes, &lent[1], &mut other);
        differs |= seen(&one) != seen(&other);
    }
    findings.altered += 1;
    findings.altered_seen += u64::from(differs);
    Ok(())
}
