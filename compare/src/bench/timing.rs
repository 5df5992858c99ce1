//! Timing: all contenders in turn, for several rounds, and the best of each.
use super::clock::processor_time;
use super::contenders::Contender;
use super::inputs::Input;
use std::hint::black_box;
use std::time::{Duration, Instant};

const ROUNDS: usize = 8;
/// The rounds in which every contender is timed, however slow it is.
const ROUNDS_AT_LEAST: usize = 2;
/// A sample repeats a call until this time has passed, so that the clock's resolution does not matter.
const SAMPLE: Duration = Duration::from_micros(500);
/// A contender that has taken this long on an input skips the remaining rounds.
const ENOUGH: Duration = Duration::from_millis(150);

/// One sample: the processor time of one call, in nanoseconds, and of all its calls. The inputs are taken in turn.
fn sample(contender: &Contender, inputs: &[Input], words: &mut [u32]) -> (f64, Duration) {
    let begun = Instant::now();
    let from = processor_time();
    let mut calls = 0;
    while calls == 0 || begun.elapsed() < SAMPLE {
        for input in inputs {
            black_box(contender.run(black_box(input), black_box(words)));
        }
        calls += inputs.len();
    }
    let taken = processor_time() - from;
    (taken.as_nanos() as f64 / calls as f64, taken)
}

/// For each contender its best time of a call, in nanoseconds: the mean over the inputs in its best round. Before a sample is
/// timed the contender runs as long untimed, unless one pass over the inputs takes longer than a sample: the processor learns
/// the branches of a search, and one contender should not train it for the next. The words are not cleared between calls.
pub fn time(contenders: &[Contender], inputs: &[Input], words: &mut [u32]) -> Vec<f64> {
    let mut best = vec![f64::INFINITY; contenders.len()];
    let mut spent = vec![Duration::ZERO; contenders.len()];
    for round in 0..ROUNDS {
        for (at, contender) in contenders.iter().enumerate() {
            if round >= ROUNDS_AT_LEAST && spent[at] > ENOUGH {
                continue;
            }
            if best[at] * (inputs.len() as f64) < SAMPLE.as_nanos() as f64 {
                sample(contender, inputs, words);
            }
            let (nanoseconds, taken) = sample(contender, inputs, words);
            best[at] = best[at].min(nanoseconds);
            spent[at] += taken;
        }
    }
    best
}
