//! Times of several calls, taken in turns so that all meet the same disturbances.

use std::time::Instant;

const ROUND_SECONDS: f64 = 0.004;

pub type Call<'a> = Box<dyn FnMut() + 'a>;

/// The median time of each call, in seconds.
pub fn in_turns(rounds: usize, calls: &mut [Call]) -> Vec<f64> {
    let repetitions: Vec<u32> = calls.iter_mut().map(repetitions_for_a_round).collect();
    let mut times = vec![Vec::new(); calls.len()];
    for _ in 0..rounds {
        for (i, call) in calls.iter_mut().enumerate() {
            times[i].push(time(call, repetitions[i]));
        }
    }
    times.into_iter().map(median).collect()
}

fn repetitions_for_a_round(call: &mut Call) -> u32 {
    let mut repetitions = 1;
    while time(call, repetitions) * f64::from(repetitions) < ROUND_SECONDS / 2.0 {
        repetitions *= 2;
    }
    repetitions
}

fn time(call: &mut Call, repetitions: u32) -> f64 {
    let start = Instant::now();
    for _ in 0..repetitions {
        call();
    }
    start.elapsed().as_secs_f64() / f64::from(repetitions)
}

fn median(mut times: Vec<f64>) -> f64 {
    times.sort_by(f64::total_cmp);
    times[times.len() / 2]
}
