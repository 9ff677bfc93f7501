//! Times of the library and the port, taken in turn on the same inputs so that noise hits both.

use std::time::Instant;

/// The times of one row in nanoseconds: for each input the least over all rounds.
pub struct Times {
    pub library: Vec<f64>,
    pub port: Vec<f64>,
}

/// How often a row is measured: calls in a batch, and rounds after the one that warms up.
#[derive(Clone, Copy)]
pub struct Effort {
    pub batch: u32,
    pub rounds: usize,
}

/// The time of one call, from a batch of the same call.
fn batch<I>(count: u32, input: &I, call: &mut impl FnMut(&I)) -> f64 {
    let start = Instant::now();
    for _ in 0..count {
        call(input);
    }
    start.elapsed().as_nanos() as f64 / f64::from(count)
}

/// Both sides' times in one round. Which side comes first changes from round to round.
pub fn in_turn<T>(round: usize, library: impl FnOnce() -> T, port: impl FnOnce() -> T) -> (T, T) {
    if round % 2 == 0 {
        let a = library();
        (a, port())
    } else {
        let b = port();
        (library(), b)
    }
}

/// The times of both sides on each input.
pub fn each<I>(
    inputs: &[I],
    effort: Effort,
    mut library: impl FnMut(&I),
    mut port: impl FnMut(&I),
) -> Times {
    let mut best = vec![(f64::MAX, f64::MAX); inputs.len()];
    for round in 0..=effort.rounds {
        for (input, best) in inputs.iter().zip(&mut best) {
            let (a, b) = in_turn(
                round,
                || batch(effort.batch, input, &mut library),
                || batch(effort.batch, input, &mut port),
            );
            if round > 0 {
                *best = (best.0.min(a), best.1.min(b));
            }
        }
    }
    let (library, port) = best.into_iter().unzip();
    Times { library, port }
}

/// The mean time of a call when all inputs are passed once, none twice in a row: for each round.
pub fn passes<I>(
    inputs: &[I],
    rounds: usize,
    mut library: impl FnMut(&I),
    mut port: impl FnMut(&I),
) -> Times {
    let mut times = Times { library: Vec::new(), port: Vec::new() };
    for round in 0..=rounds {
        let (a, b) = in_turn(round, || pass(inputs, &mut library), || pass(inputs, &mut port));
        if round > 0 {
            times.library.push(a);
            times.port.push(b);
        }
    }
    times
}

/// The mean time of a call over one pass.
fn pass<I>(inputs: &[I], call: &mut impl FnMut(&I)) -> f64 {
    let start = Instant::now();
    inputs.iter().for_each(call);
    start.elapsed().as_nanos() as f64 / inputs.len() as f64
}
