//! Comparisons under definitions that leave nothing out: every truncation of a book of them, every refusal of one of
//! its pictures at every row, every place of a definition that is refused, and every input that 27, 29 and 30 can name.

use super::book;
use super::both::Both;
use super::calls::{Call, LCS, MOST_SPECIFIC, NORMALIZE, SUBSUMES, VERIFY};
use super::files::{places, refused_at, READING};
use super::lent::Fill;
use super::reference::definitions::MAX_DEFINITIONS;
use super::reference::table::{Refused, KIND_EXISTS, ROW_BYTES};
use super::reference::{of_card, refusal, refusal_at, Input, NOTHING};
use super::rng::Rng;
use super::trees::{all, chain, encode, root, some, Node, Tree};

/// Names of definitions that make a picture too large and too deep, and of one that does neither.
const WIDE: u8 = 5;
const DEEP: u8 = 6;
const PLAIN: u8 = 7;

/// All of them.
pub fn compare(both: &mut Both) {
    let mut rng = Rng::new(0);
    truncations(both, &mut rng);
    refused_rows(both, &mut rng);
    refused_places(both, &mut rng);
    refused_inputs(both, &mut rng);
    refused_books(both, &mut rng);
    both.definitions = NOTHING.definitions.to_vec();
}

/// A call on the first picture, on both, or on the first as the case and the second as card 1 of three.
fn given(call: &Call, both: &mut Both, first: &[u8], second: &[u8], rng: &mut Rng) -> u64 {
    let good = encode(&[root()]);
    let book = book::encode(&[good.clone(), second.to_vec(), good]);
    let other = if call.number == MOST_SPECIFIC.number { &book } else { second };
    both.with(call, &[first, other, &[]], call.work, call.result, Fill::Random, rng).expected
}

const CALLS: [&Call; 5] = [&NORMALIZE, &SUBSUMES, &LCS, &VERIFY, &MOST_SPECIFIC];

/// Each call; the word of each is known.
fn compare_all(both: &mut Both, first: &[u8], second: &[u8], word: u64, rng: &mut Rng) {
    for call in CALLS {
        let is = given(call, both, first, second, rng);
        both.checks.check(is == word, || format!("{}: {is:016x}, not {word:016x} as it was made", call.name));
    }
}

fn wanting(name: u8) -> Node {
    Node { wanted: 1 << name, ..root() }
}

fn fan(rows: usize) -> Tree {
    [vec![root()], vec![some(0, 8, 0); rows - 1]].concat()
}

fn plain() -> Vec<u8> {
    encode(&[Node { wanted: 1, ..root() }, some(0, 8, 2), all(0, 9, 4)])
}

fn definitions() -> Vec<(u8, Vec<u8>)> {
    vec![(WIDE, encode(&fan(250))), (PLAIN, plain()), (DEEP, encode(&chain(12, KIND_EXISTS, 8, 0)))]
}

fn truncations(both: &mut Both, rng: &mut Rng) {
    let second = encode(&[wanting(PLAIN)]);
    let first = encode(&[wanting(PLAIN), some(0, 8, 1 << PLAIN)]);
    let whole = book::definitions(&[(PLAIN, plain()), (9, second.clone())]);
    for length in 0..=whole.len() {
        both.definitions = whole[..length].to_vec();
        both.subject = format!("definitions cut off at {length}");
        for call in CALLS {
            given(call, both, &first, &second, rng);
        }
    }
}

/// Each question with each row at which it can refuse a definition's picture.
fn refused_rows(both: &mut Both, rng: &mut Rng) {
    let good = encode(&[root()]);
    for (question, row) in places(READING) {
        let refused = Refused { question, row, byte: row * ROW_BYTES };
        let word = of_card(1, refusal_at(Input::Definition, refused));
        both.subject = format!("definition refused by {question} at row {row}");
        both.definitions = book::definitions(&[(1, good.clone()), (2, refused_at(question, row)), (1, good.clone())]);
        compare_all(both, &good, &good, word, rng);
    }
}

/// Each place of a full book at which 27, 29 or 30 refuses a definition.
fn refused_places(both: &mut Both, rng: &mut Rng) {
    let good = encode(&[root()]);
    for place in 0..MAX_DEFINITIONS {
        // What is refused by a question mentions a definition beside it.
        let name = |at: usize| (at % MAX_DEFINITIONS) as u8;
        let wanted = 1 << name(place + 1);
        let excluding = encode(&[root(), Node { excluded: wanted, ..some(0, 8, 0) }]);
        let wide = encode(&[&[Node { wanted, ..root() }][..], &vec![some(0, 8, 0); 255]].concat());
        let deep = encode(&chain(12, KIND_EXISTS, 8, wanted));
        for (question, bad) in [(27, excluding), (29, wide), (30, deep)] {
            let picture = |at| if at == place { bad.clone() } else { encode(&fan(2)) };
            let all: Vec<(u8, Vec<u8>)> = (0..MAX_DEFINITIONS).map(|at| (name(at), picture(at))).collect();
            both.definitions = book::definitions(&all);
            both.subject = format!("definition {place} refused by {question}");
            compare_all(both, &good, &good, of_card(place, refusal(Input::Definition, question)), rng);
        }
    }
}

/// The first and the second, or a card, refused by 27, 29 and 30.
fn refused_inputs(both: &mut Both, rng: &mut Rng) {
    let good = encode(&[wanting(PLAIN)]);
    let excluding = encode(&[root(), Node { excluded: 1 << DEEP, ..some(0, 8, 0) }]);
    let wide = encode(&[&[wanting(WIDE)][..], &vec![some(0, 8, 0); 7]].concat());
    let deep = encode(&[root(), some(0, 8, 1 << DEEP)]);
    both.definitions = book::definitions(&definitions());
    for (question, bad) in [(27, &excluding), (29, &wide), (30, &deep)] {
        both.subject = format!("refused by {question} under definitions");
        compare_all(both, bad, &good, refusal(Input::First, question), rng);
        for call in [&SUBSUMES, &LCS, &VERIFY] {
            let word = given(call, both, &good, bad, rng);
            both.checks.check(word == refusal(Input::Second, question), || format!("second, {question}"));
        }
        let word = given(&MOST_SPECIFIC, both, &good, bad, rng);
        both.checks.check(word == of_card(1, refusal(Input::Card, question)), || format!("card, {question}"));
        for (_, other) in [(27, &excluding), (29, &wide), (30, &deep)] {
            for call in CALLS {
                given(call, both, bad, other, rng);
            }
        }
    }
}

/// 25, 26 and 28, each with what comes after it.
fn refused_books(both: &mut Both, rng: &mut Rng) {
    let wide = encode(&[&[wanting(WIDE)][..], &vec![some(0, 8, 0); 7]].concat());
    let ring = [(20, encode(&[root(), some(0, 8, 1 << 21)])), (21, encode(&[wanting(20)]))];
    let twice = [(PLAIN, plain())];
    let after = [&definitions()[..], &ring].concat();
    both.definitions = book::definitions(&after);
    both.subject = "a ring".to_string();
    compare_all(both, &wide, &wide, refusal(Input::Definitions, 28), rng);
    both.definitions = book::definitions(&[&after[..], &twice].concat());
    both.subject = "a name twice".to_string();
    compare_all(both, &wide, &wide, refusal(Input::Definitions, 26), rng);
    both.definitions.push(0);
    both.subject = "no book".to_string();
    compare_all(both, &wide, &wide, refusal(Input::Definitions, 25), rng);
}
