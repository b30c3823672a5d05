//! The options that the programs share.

use std::env;
use std::ops::Range;

pub struct Arguments {
    /// How many times as many seeds as a comparison has by itself.
    pub times: u64,
    pub seed: u64,
    /// The program under test, for those that start one.
    pub program: Option<String>,
}

impl Arguments {
    /// Ends the program on an option that it does not know.
    pub fn read() -> Arguments {
        let mut arguments = Arguments {
            times: 1,
            seed: 1,
            program: None,
        };
        let mut given = env::args().skip(1);
        while let Some(option) = given.next() {
            let value = given.next().unwrap_or_default();
            match (option.as_str(), value.parse()) {
                ("--times", Ok(number)) => arguments.times = number,
                ("--seed", Ok(number)) => arguments.seed = number,
                ("--program", _) if !value.is_empty() => arguments.program = Some(value),
                _ => {
                    eprintln!("options: --times N, --seed S, --program PATH");
                    std::process::exit(2);
                }
            }
        }
        arguments
    }

    /// The seeds of a comparison that has so many by itself. They are counted and not timed, so that what is tried does
    /// not depend on the machine.
    pub fn seeds(&self, own: u64) -> Range<u64> {
        self.seed..self.seed + own * self.times
    }
}
