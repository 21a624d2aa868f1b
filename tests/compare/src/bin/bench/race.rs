//! Two pieces of work that take turns.

use std::{
    hint::black_box,
    time::{Duration, Instant},
};

/// Medians over the rounds: nanoseconds of each, and the first's by the second's.
pub struct Race {
    pub original: f64,
    pub ours: f64,
    pub ratio: f64,
}

/// The rounds, and how long one of a side takes at least.
const ROUNDS: usize = 21;
const ROUND: Duration = Duration::from_millis(1);

/// Work that takes this long is done in few rounds.
const SLOW: Duration = Duration::from_millis(100);
const SLOW_ROUNDS: usize = 3;

/// None where the two answer differently.
pub fn race(mut original: impl FnMut() -> u64, mut ours: impl FnMut() -> u64) -> Option<Race> {
    if original() != ours() {
        return None;
    }
    let (often, slow) = often_enough(&mut original);
    let (ours_often, ours_slow) = often_enough(&mut ours);
    let rounds = if slow || ours_slow { SLOW_ROUNDS } else { ROUNDS };
    let mut times: Vec<(f64, f64)> = Vec::new();
    for _ in 0..rounds {
        times.push((round(often, &mut original), round(ours_often, &mut ours)));
    }
    Some(Race {
        original: median(times.iter().map(|&(original, _)| original).collect()),
        ours: median(times.iter().map(|&(_, ours)| ours).collect()),
        ratio: median(times.iter().map(|&(original, ours)| original / ours).collect()),
    })
}

/// The median over the rounds of work that takes no turns: nanoseconds.
pub fn alone(mut work: impl FnMut() -> u64) -> f64 {
    let (often, slow) = often_enough(&mut work);
    let rounds = if slow { SLOW_ROUNDS } else { ROUNDS };
    median((0..rounds).map(|_| round(often, &mut work)).collect())
}

/// How often work must be done to fill a round, and whether once is slow.
fn often_enough(work: &mut impl FnMut() -> u64) -> (usize, bool) {
    let mut often = 1;
    loop {
        let began = Instant::now();
        for _ in 0..often {
            black_box(work());
        }
        let took = began.elapsed();
        if took >= ROUND {
            return (often, often == 1 && took > SLOW);
        }
        often *= 2;
    }
}

/// Nanoseconds that the work takes once, on average over a round.
fn round(often: usize, work: &mut impl FnMut() -> u64) -> f64 {
    let began = Instant::now();
    for _ in 0..often {
        black_box(work());
    }
    began.elapsed().as_nanos() as f64 / often as f64
}

fn median(mut values: Vec<f64>) -> f64 {
    values.sort_by(f64::total_cmp);
    values[values.len() / 2]
}
