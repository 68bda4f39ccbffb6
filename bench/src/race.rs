//! Times the sides of a row by turns, many rounds of each, so that other work on the machine disturbs little.

use std::hint::black_box;
use std::time::Instant;

/// Rounds of a block, whose mean is taken so that the steps of the clock count little.
const BLOCK: usize = 10;

/// What counts of the times of a turn.
pub type Count = fn(&[u64]) -> f64;

/// The mean of the quickest fifth of the blocks: for turns that are short beside the steps of the clock.
pub fn quickest(times: &[u64]) -> f64 {
    let mut sums: Vec<u64> = times
        .chunks_exact(BLOCK)
        .map(|block| block.iter().sum())
        .collect();
    sums.sort_unstable();
    let fifth = &sums[..sums.len().div_ceil(5)];
    fifth.iter().sum::<u64>() as f64 / (fifth.len() * BLOCK) as f64
}

/// The best: for turns that are long beside the steps of the clock.
pub fn best(times: &[u64]) -> f64 {
    times.iter().min().map_or(0.0, |best| *best as f64)
}

/// How often each turn is timed, how many turns there are, and what counts.
pub struct Plan {
    pub count: Count,
    pub rounds: usize,
    pub turns: usize,
}

impl Plan {
    /// The time of each of so many sides in nanoseconds, summed up over its turns. `ready` comes before each turn of a side and is not timed. The side past the last has
    /// an empty turn, whose time is subtracted. Every other round goes through the sides backwards: who comes second finds the branch predictor told of the
    /// turn's data by who came first.
    pub fn race(
        &self,
        sides: usize,
        mut ready: impl FnMut(usize, usize),
        mut turn: impl FnMut(usize, usize) -> u64,
    ) -> Vec<f64> {
        let mut times = vec![vec![Vec::new(); sides + 1]; self.turns];
        for round in 0..self.rounds {
            for (k, times) in times.iter_mut().enumerate() {
                for step in 0..=sides {
                    let side = if round % 2 == 0 { step } else { sides - step };
                    ready(side, k);
                    let start = Instant::now();
                    black_box(turn(side, k));
                    times[side].push(start.elapsed().as_nanos() as u64);
                }
            }
        }
        let sum =
            |side: usize| -> f64 { times.iter().map(|times| (self.count)(&times[side])).sum() };
        let empty = sum(sides);
        (0..sides).map(|side| sum(side) - empty).collect()
    }
}
