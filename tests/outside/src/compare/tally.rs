//! How often each answer was met, at how many different places, and for which reasons.

use crate::answer::Answer;
use crate::reference::refusal;
use std::collections::{BTreeMap, HashSet};

#[derive(Default)]
pub struct Tally {
    answers: BTreeMap<u32, Hits>,
    reasons: BTreeMap<&'static str, u64>,
}

#[derive(Default)]
struct Hits {
    count: u64,
    places: HashSet<usize>,
    shortest: Option<usize>,
    longest: Option<usize>,
}

impl Tally {
    pub fn add(&mut self, answer: Answer, image_length: usize) {
        let hits = self.answers.entry(answer.number).or_default();
        hits.count += 1;
        hits.places.insert(answer.place);
        let shortest = hits.shortest.get_or_insert(image_length);
        *shortest = image_length.min(*shortest);
        let longest = hits.longest.get_or_insert(image_length);
        *longest = image_length.max(*longest);
    }

    /// A reason that some call may have, and whether this one has it.
    pub fn note(&mut self, reason: &'static str, met: bool) {
        *self.reasons.entry(reason).or_default() += u64::from(met);
    }

    pub fn total(&self) -> u64 {
        self.answers.values().map(|hits| hits.count).sum()
    }

    pub fn print(&self, what: &str) {
        println!("{what}: {} compared", self.total());
        println!("number       hits     places   shortest    longest (bytes of image)");
        for (number, hits) in &self.answers {
            println!(
                "{number:>6} {:>10} {:>10} {:>10} {:>10}",
                hits.count,
                hits.places.len(),
                hits.shortest.unwrap_or(0),
                hits.longest.unwrap_or(0)
            );
        }
        self.print_reasons();
    }

    pub fn print_reasons(&self) {
        for (reason, count) in &self.reasons {
            println!("{count:>17} {reason}");
        }
    }

    /// What a call on designs has not met, without the numbers that it never gives.
    pub fn missing(&self, never: &[u32]) -> Vec<String> {
        let given = refusal::DESIGNS.iter().copied();
        let given: Vec<u32> = given.filter(|number| !never.contains(number)).collect();
        self.missing_of(&given)
    }

    /// Acceptance and those of the numbers that were not met, and the reasons.
    pub fn missing_of(&self, numbers: &[u32]) -> Vec<String> {
        let numbers = [0].iter().chain(numbers);
        let numbers = numbers.filter(|number| !self.answers.contains_key(number));
        let numbers = numbers.map(|number| number.to_string());
        numbers.chain(self.missing_reasons()).collect()
    }

    pub fn missing_reasons(&self) -> Vec<String> {
        let missing = self.reasons.iter().filter(|(_, count)| **count == 0);
        missing.map(|(reason, _)| reason.to_string()).collect()
    }
}
