//! The library and the reference agree on pairs of pictures, and on cases with books, made at random, without
//! definitions and under some: on the words, on every byte of the buffers lent, and on evidence, whole and damaged.
//! Which refutation is written is the library's choice; whichever it is, both checks take it. Before that they agree on
//! inputs made by hand: on every truncation of their files, on buffers of every sort, and on every refusal at every
//! row. Each refusal that a call can give has to be met, at each row that it can name, and no other.
//!
//!     random [--seed S] [--seconds N]
//!
//! A pair and a book are made from a seed of their own, one more than that of those before: to see them again, give
//! their seed. Without seconds their number is fixed, and every run makes the same ones.

mod book;
mod book_tally;
mod books;
mod both;
mod calls;
mod card_order;
mod checks;
mod compare;
mod compare_book;
mod compare_definitions;
mod damage;
mod defined;
mod draw;
mod evidence_files;
mod exhaust;
mod exhaust_definitions;
mod files;
mod lent;
mod library;
mod pairs;
#[path = "reference.rs"] // its modules are beside it
mod reference;
mod refusals;
mod rng;
mod tally;
mod trees;
mod weaken;

use std::process::ExitCode;
use std::time::{Duration, Instant};

use both::Both;
use checks::Checks;
use compare::Comparison;
use compare_book::BookComparison;
use compare_definitions::DefinitionComparison;
use rng::Rng;

const PAIRS: u64 = 40_000;
/// After so many pairs, the calls under definitions.
const DEFINITIONS_EACH: u64 = 4;

struct Arguments {
    seed: u64,
    seconds: Option<u64>,
}

fn arguments() -> Option<Arguments> {
    let mut arguments = Arguments { seed: 1, seconds: None };
    let mut words = std::env::args().skip(1);
    while let Some(word) = words.next() {
        let number = words.next()?.parse().ok()?;
        match word.as_str() {
            "--seed" => arguments.seed = number,
            "--seconds" => arguments.seconds = Some(number),
            _ => return None,
        }
    }
    Some(arguments)
}

fn main() -> ExitCode {
    let Some(arguments) = arguments() else {
        eprintln!("usage: random [--seed S] [--seconds N]");
        return ExitCode::from(2);
    };
    let start = Instant::now();
    let more = |pairs: u64| match arguments.seconds {
        Some(seconds) => start.elapsed() < Duration::from_secs(seconds),
        None => pairs < PAIRS,
    };
    let mut both = Both::new();
    exhaust::compare(&mut both);
    exhaust_definitions::compare(&mut both);
    println!("by hand: {} checks", both.checks.passed + both.checks.failed);
    let (mut pairs, mut books) = (Comparison::default(), BookComparison::default());
    let mut definitions = DefinitionComparison::default();
    let mut made = 0;
    while more(made) {
        let seed = arguments.seed.wrapping_add(made);
        pairs.pair(&mut both, seed, &mut Rng::new(seed));
        books.book(&mut both, seed, &mut Rng::new(!seed));
        if made % DEFINITIONS_EACH == 0 {
            definitions.definitions(&mut both, seed, &mut Rng::new(seed.rotate_left(32)));
        }
        made += 1;
    }
    pairs.check_tally(&mut both);
    books.check_tally(&mut both);
    definitions.check_tally(&mut both);
    both.refusals.print();
    both.checks.check_met(both.refusals.answers());
    both.checks.check(both.refusals.none_else(), || "a refusal that no call can give".to_string());
    let Checks { passed, failed } = both.checks;
    println!("test_rust_random: {passed} passed, {failed} failed");
    ExitCode::from(u8::from(failed > 0))
}
