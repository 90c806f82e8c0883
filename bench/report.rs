//! What is printed.

use std::iter;

use super::calls::{Call, Input};
use super::lines::{Line, Sort, FULL_GOAL, GOAL, GROWTH, LINES};
use super::race::Race;
use super::reference::table::{HEAD_BYTES, ROW_BYTES, TAG_ROW};
use super::reference::{INDIVIDUAL_BYTES, TAG_INDIVIDUAL};

pub struct Timed {
    pub call: &'static Call,
    pub line: &'static Line,
    pub size: Size,
    pub race: Race,
}

impl Timed {
    /// The library's time by that of another side.
    fn ratio(&self, side: usize) -> Option<f64> {
        let best = &self.race.best;
        best.get(side).map(|time| best[0] / time)
    }
}

const RUST: usize = 1;
const PLAIN: usize = 2;

/// What the size of the inputs is, on average.
pub struct Size {
    rows: String,
    cards: Option<usize>,
    individuals: Option<usize>,
}

impl Size {
    pub fn of(inputs: &[Input]) -> Size {
        let mean = |of: fn(&Input) -> usize| inputs.iter().map(of).sum::<usize>() / inputs.len();
        let any = &inputs[0];
        let pair = any.second.first() == Some(&TAG_ROW);
        let first = mean(|input| input.first.len() / ROW_BYTES);
        let second = mean(|input| input.second.len() / ROW_BYTES);
        let refuted = any.evidence.first() == Some(&TAG_INDIVIDUAL);
        Size {
            rows: if pair { format!("{first}+{second}") } else { first.to_string() },
            cards: (!pair && !any.second.is_empty()).then(|| cards(&any.second)),
            individuals: refuted.then(|| mean(|input| input.evidence.len() / INDIVIDUAL_BYTES)),
        }
    }
}

/// Fields of a book but its end.
fn cards(book: &[u8]) -> usize {
    let length = |at: usize| usize::from(u16::from_be_bytes([book[at + 1], book[at + 2]]));
    let next = |&at: &usize| Some(at + HEAD_BYTES + length(at)).filter(|&next| next < book.len());
    iter::successors(Some(0), next).count() - 1
}

fn or_dash<T>(value: Option<T>, show: impl Fn(T) -> String) -> String {
    value.map_or("-".to_string(), show)
}

/// A ratio above the goal is marked.
fn ratio(ratio: Option<f64>, goal: f64) -> String {
    let mark = if ratio > Some(goal) { '*' } else { ' ' };
    format!("{}{mark}", or_dash(ratio, |ratio| format!("{ratio:.2}")))
}

pub fn table(table: &[Timed]) {
    println!(
        "{:<13} {:<7} {:<28} {:>7} {:>5} {:>11} {:>11} {:>11} {:>6} {:>11} {:>6}",
        "call", "sort", "input", "rows", "cards", "individuals", "library ns", "Rust ns", "ratio ", "C ns", "ratio "
    );
    for timed in table {
        let (Timed { call, line: (sort, name, ..), size, race }, best) = (timed, &timed.race.best);
        let number = |number: Option<usize>| or_dash(number, |number| number.to_string());
        println!(
            "{:<13} {:<7} {name:<28} {:>7} {:>5} {:>11} {:>11.0} {:>11.0} {:>6} {:>11} {:>6}",
            call.name,
            sort.name(),
            size.rows,
            number(size.cards),
            number(size.individuals),
            race.best[0],
            best[RUST],
            ratio(timed.ratio(RUST), sort.goal()),
            or_dash(best.get(PLAIN), |time| format!("{time:.0}")),
            ratio(timed.ratio(PLAIN), sort.goal()),
        );
    }
    println!("* the library takes more than {GOAL} times as long, on full books more than {FULL_GOAL} times");
}

/// The geometric mean; none of nothing.
fn mean(ratios: &[f64]) -> Option<f64> {
    let sum: f64 = ratios.iter().map(|ratio| ratio.ln()).sum();
    (!ratios.is_empty()).then(|| (sum / ratios.len() as f64).exp())
}

/// The mean ratio of each call on typical inputs, and that of all calls, in which each counts alike.
pub fn means(table: &[Timed]) {
    let typical = |call: &Call, side: usize| {
        let lines = table.iter().filter(|timed| timed.call.name == call.name && timed.line.0 == Sort::Typical);
        mean(&lines.filter_map(|timed| timed.ratio(side)).collect::<Vec<f64>>())
    };
    let all = |side: usize| mean(&LINES.iter().filter_map(|(call, _)| typical(call, side)).collect::<Vec<f64>>());
    let show = |name: &str, to: [Option<f64>; 2]| {
        let [rust, plain] = to.map(|mean| ratio(mean, Sort::Typical.goal()));
        println!("{name:<13} {rust:>6} {plain:>6}");
    };
    println!("\ntypical inputs: geometric mean of the ratios");
    println!("{:<13} {:>6} {:>6}", "call", "Rust ", "C ");
    for (call, _) in &LINES {
        show(call.name, [RUST, PLAIN].map(|side| typical(call, side)));
    }
    show("all", [RUST, PLAIN].map(all));
}

/// The exponent is that of the last step.
pub fn growth(growth: &[Vec<Race>]) {
    println!("\ngrowth of the library's time");
    let cells = format!("{:>5} {:>9} ", "size", "ns").repeat(GROWTH[0].3.len());
    println!("{:<13} {:<28} {:<11} {cells}{:>8}", "call", "input", "size in", "exponent");
    for ((call, name, unit, sizes, _), races) in GROWTH.iter().zip(growth) {
        let points: Vec<(f64, f64)> =
            sizes.iter().zip(races).map(|(&size, race)| (size as f64, race.best[0])).collect();
        let cells: String = points.iter().map(|(size, time)| format!("{size:>5} {time:>9.0} ")).collect();
        let [.., before, last] = points[..] else { continue };
        let exponent = (last.1 / before.1).ln() / (last.0 / before.0).ln();
        println!("{:<13} {name:<28} {unit:<11} {cells}{exponent:>8.2}", call.name);
    }
}
