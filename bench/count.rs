//! What `make count` counts: bench/count.sh runs this under cachegrind, which counts the instructions of a whole
//! process and writes a file when it ends. So each side makes its calls in a process of its own, and bench/count.awk
//! takes away what the others have too.

use std::hint::black_box;

use super::calls::{Buffers, Call, Input, Side};
use super::lines::Line;

extern "C" {
    fn fork() -> i32;
    fn waitpid(process: i32, status: *mut i32, options: i32) -> i32;
    fn _exit(status: i32) -> !;
}

/// Makes no call: what is left is the loop.
const NOTHING: Side = |_, _| 0;

/// The number of a process that made one call on each input. What this one took so far counts as its own too.
#[inline(never)]
fn process(side: Side, inputs: &[Input], buffers: &mut Buffers) -> i32 {
    let process = unsafe { fork() };
    if process == 0 {
        for input in inputs {
            black_box(side(black_box(input), buffers));
        }
        unsafe { _exit(0) };
    }
    let mut status = 0;
    let ended = unsafe { waitpid(process, &mut status, 0) };
    assert!(process > 0 && ended == process && status == 0, "a call that is counted did not return");
    process
}

/// How many calls there are, the processes, and what they are made on. From one process to the next this one takes the
/// same few instructions each time: the first two say how many, and the last that it is so.
pub fn print(call: &Call, (sort, name, ..): &Line, inputs: &[Input]) {
    let sides = vec![NOTHING, NOTHING, call.library, call.plain.unwrap_or(NOTHING), call.rust, NOTHING];
    let mut buffers = Buffers::new();
    let processes: Vec<i32> = black_box(sides).iter().map(|&side| process(side, inputs, &mut buffers)).collect();
    print!("{}", inputs.len());
    processes.iter().for_each(|process| print!(" {process}"));
    println!(" {:<13} {:<7} {name}", call.name, sort.name());
}
