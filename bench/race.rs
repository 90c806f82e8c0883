//! Several implementations of one call timed in turn, by the time of the thread, so that what else the machine does
//! counts little. The best of many short rounds counts, so that all see the same machine.

use std::hint::black_box;

use super::calls::{Buffers, Input, Side};

/// At most so many rounds, unless they are over sooner.
const ROUNDS: usize = 41;
/// What a round should take at least, and all rounds of one side at most, in nanoseconds.
const ROUND: f64 = 200_000.0;
const ALL_ROUNDS: f64 = 50_000_000.0;

/// `struct timespec`.
#[repr(C)]
struct Time {
    seconds: i64,
    nanoseconds: i64,
}

const CLOCK_THREAD_CPUTIME_ID: i32 = 3;

extern "C" {
    fn clock_gettime(clock: i32, time: *mut Time) -> i32;
}

/// How long the thread has run, in nanoseconds.
fn now() -> f64 {
    let mut time = Time { seconds: 0, nanoseconds: 0 };
    unsafe { clock_gettime(CLOCK_THREAD_CPUTIME_ID, &mut time) };
    time.seconds as f64 * 1e9 + time.nanoseconds as f64
}

pub struct Race {
    sides: Vec<Side>,
    inputs: Vec<Input>,
    /// Nanoseconds for each call, of each side.
    pub best: Vec<f64>,
}

impl Race {
    pub fn new(sides: Vec<Side>, inputs: Vec<Input>) -> Race {
        let best = vec![f64::MAX; sides.len()];
        Race { sides, inputs, best }
    }

    /// Nanoseconds for each call.
    fn round(&self, side: Side, buffers: &mut Buffers, turns: usize) -> f64 {
        let start = now();
        for _ in 0..turns {
            for input in &self.inputs {
                black_box(side(black_box(input), buffers));
            }
        }
        (now() - start) / (turns * self.inputs.len()) as f64
    }

    /// Some more rounds.
    pub fn run(&mut self) {
        let mut buffers = Buffers::new();
        let once = self.round(self.sides[0], &mut buffers, 1) * self.inputs.len() as f64;
        let turns = 1 + (ROUND / once) as usize;
        let rounds = ROUNDS.min(1 + (ALL_ROUNDS / once) as usize);
        for _ in 0..rounds {
            for side in 0..self.sides.len() {
                let time = self.round(self.sides[side], &mut buffers, turns);
                self.best[side] = self.best[side].min(time);
            }
        }
    }
}
