//! One table of the time of every call beside that of the same call in Rust and, where there is one, in plain C; then
//! how the time grows with the size.
//!
//! All sides answer alike before they are timed. A ratio above the goal is marked: 1.3, and 1.5 on full books of which
//! every card subsumes the case.
//!
//! With the argument `count`, what bench/count.sh counts.

#[path = "../tests/rust/book.rs"]
mod book;
mod calls;
mod count;
mod lcs_inputs;
#[path = "../tests/rust/library.rs"]
mod library;
mod lines;
mod most_specific_inputs;
mod parts;
mod picture_inputs;
mod plain;
mod race;
#[allow(dead_code)] // what only the tests ask of it
#[path = "../tests/rust/reference.rs"]
mod reference;
mod report;
#[allow(dead_code)]
#[path = "../tests/rust/rng.rs"]
mod rng;
mod subsumes_inputs;
#[path = "../tests/rust/trees.rs"]
mod trees;
mod verify_inputs;
#[allow(dead_code)]
#[path = "../tests/rust/weaken.rs"]
mod weaken;

use std::env;
use std::process::exit;

use calls::{Call, Input, Side};
use lines::{Growth, Line, Sort, DEFINED_LINES, GROWTH, LINES};
use race::Race;
use reference::outcome;
use report::{Size, Timed};
use rng::Rng;

/// Different inputs of a sort, so that no branch is learned by heart, and about how many bytes of them.
const INPUTS: usize = 32;
const INPUT_BYTES: usize = 100_000;
/// Of inputs that are drawn, for one that has the outcome.
const ATTEMPTS: usize = 100;
/// Each line has its turn so many times, so that no line meets only a busy machine.
const TURNS: usize = 5;

fn fail(call: &Call, name: &str, why: &str) -> ! {
    eprintln!("bench: {}, {name}: {why}", call.name);
    exit(1);
}

/// Inputs with this outcome. A maker that draws nothing gives one.
fn draw(call: &Call, (_, name, wanted, make): &Line) -> Vec<Input> {
    let mut rng = Rng::new(1);
    let mut inputs: Vec<Input> = Vec::new();
    let mut bytes = 0;
    for _ in 0..INPUTS * ATTEMPTS {
        let input = make(&mut rng);
        if inputs.len() == INPUTS || bytes >= INPUT_BYTES || inputs.first() == Some(&input) {
            break;
        }
        if outcome(Call::answer(call.rust, &input).word) == *wanted {
            bytes += input.first.len() + input.second.len() + input.evidence.len();
            inputs.push(input);
        }
    }
    if inputs.is_empty() {
        fail(call, name, "not the outcome");
    }
    inputs
}

/// A race on inputs on which all sides answer alike.
fn race(call: &Call, name: &str, sides: Vec<Side>, inputs: Vec<Input>) -> Race {
    for input in &inputs {
        let expected = Call::answer(call.rust, input);
        for &side in &sides {
            if !(call.agree)(input, &Call::answer(side, input), &expected) {
                fail(call, name, "not the same answer");
            }
        }
    }
    Race::new(sides, inputs)
}

/// A line and its sides: the library, the Rust and, where there is one, the plain C.
fn timed((call, line): (&'static Call, &'static Line)) -> Timed {
    let inputs = draw(call, line);
    let mut sides = vec![call.library, call.rust];
    sides.extend(call.plain);
    Timed { call, line, size: Size::of(&inputs), race: race(call, line.1, sides, inputs) }
}

/// The library at each size.
fn sizes((call, name, _, sizes, make): &Growth) -> Vec<Race> {
    let at = |&size: &usize| race(call, name, vec![call.library], vec![make(size, &mut Rng::new(1))]);
    sizes.iter().map(at).collect()
}

fn main() {
    let all = LINES.iter().chain(&DEFINED_LINES);
    let lines = all.flat_map(|(call, lines)| lines.iter().map(move |line| (call, line)));
    if env::args().nth(1).as_deref() == Some("count") {
        let counted = lines.filter(|(_, line)| line.0 != Sort::Other);
        return counted.for_each(|(call, line)| count::print(call, line, &draw(call, line)));
    }
    let mut table: Vec<Timed> = lines.map(timed).collect();
    let mut growth: Vec<Vec<Race>> = GROWTH.iter().map(sizes).collect();
    for _ in 0..TURNS {
        let races = table.iter_mut().map(|timed| &mut timed.race).chain(growth.iter_mut().flatten());
        races.for_each(Race::run);
    }
    report::table(&table);
    report::means(&table);
    report::growth(&growth);
}
