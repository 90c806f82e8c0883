//! Comparisons that leave nothing out: every truncation of files and of cards, buffers of every sort, every refusal of
//! a picture at every row, and of one picture with that of another.

use super::book;
use super::both::{Both, Words};
use super::calls::{Call, LCS, MOST_SPECIFIC, NORMALIZE, SUBSUMES, VALIDATE, VERIFY};
use super::files::{cards, large, places, refused, refused_at, refused_late, small, Given, QUESTIONS, READING};
use super::lent::Fill;
use super::reference::most_specific::MAX_CARDS;
use super::reference::table::{Refused, ROW_BYTES};
use super::reference::{of_card, refusal_at, Input};
use super::rng::Rng;
use super::trees::{encode, root};

const FILLS: [Fill; 4] = [Fill::Byte(0), Fill::Byte(0xFF), Fill::Byte(0xA5), Fill::Random];

/// All of them.
pub fn compare(both: &mut Both) {
    let mut rng = Rng::new(0);
    for (number, given) in small().iter().enumerate() {
        buffers(both, given, number, &mut rng);
        truncations(both, given, number, &mut rng);
    }
    for (number, given) in refused_late().iter().enumerate() {
        buffers(both, given, number, &mut rng);
    }
    for (number, given) in large().iter().enumerate() {
        truncations(both, given, number, &mut rng);
    }
    truncated_cards(both, &mut rng);
    refused_rows(both, &mut rng);
    refused_pairs(both, &mut rng);
    refused_cards(both, &mut rng);
}

/// The call with buffers that are just long enough.
fn exact(both: &mut Both, call: &Call, files: &[&[u8]], fill: Fill, rng: &mut Rng) -> Words {
    both.with(call, files, call.work, call.result, fill, rng)
}

/// Lengths of a buffer: too short by any number, as needed, and longer.
fn lengths(needed: usize) -> Vec<usize> {
    match needed {
        0 => vec![0, 1],
        _ => vec![0, 1, needed / 2, needed - 2, needed - 1, needed, needed + 1, needed + 1_000],
    }
}

/// Each length of each buffer with each of the other, and each fill.
fn buffers(both: &mut Both, given: &Given, number: usize, rng: &mut Rng) {
    for work in lengths(given.call.work) {
        for result in lengths(given.call.result) {
            both.subject = format!("{} {number}, work space of {work}, result buffer of {result}", given.call.name);
            for fill in FILLS {
                both.with(given.call, &given.files(), work, result, fill, rng);
            }
        }
    }
}

/// Each part of each file that begins where the file does.
fn truncations(both: &mut Both, given: &Given, number: usize, rng: &mut Rng) {
    for (at, file) in given.files.iter().enumerate() {
        for length in 0..=file.len() {
            let mut files = given.files();
            files[at] = &file[..length];
            both.subject = format!("{} {number}, file {at} cut off at {length}", given.call.name);
            exact(both, given.call, &files, FILLS[length % FILLS.len()], rng);
        }
    }
}

/// Each part of each card of a book that begins where the card does, as the card: the book is one.
fn truncated_cards(both: &mut Both, rng: &mut Rng) {
    let whole = cards();
    for (at, card) in whole.iter().enumerate() {
        for length in 0..=card.len() {
            let mut cards = whole.clone();
            cards[at].truncate(length);
            both.subject = format!("card {at} cut off at {length}");
            exact(both, &MOST_SPECIFIC, &[&whole[0], &book::encode(&cards)], FILLS[length % FILLS.len()], rng);
        }
    }
}

/// Each question with each row at which it can refuse a picture, wherever the picture stands. It was made to be refused
/// there, so that the word is known.
fn refused_rows(both: &mut Both, rng: &mut Rng) {
    let good = encode(&[root()]);
    let good_book = book::encode(&[good.clone()]);
    for (question, row) in places(READING) {
        let bad = &refused_at(question, row);
        let refused = Refused { question, row, byte: row * ROW_BYTES };
        let [first, second] = [Input::First, Input::Second].map(|input| refusal_at(input, refused));
        let card = of_card(1, refusal_at(Input::Card, refused));
        let bad_card = book::encode(&[good.clone(), bad.clone(), good.clone()]);
        both.subject = format!("refused by {question} at row {row}");
        let mut compare = |call: &Call, files: &[&[u8]], made: u64| {
            let words = exact(both, call, files, Fill::Random, rng);
            both.check(words.expected == made, "refused as it was made to be", words, files);
        };
        for call in [&VALIDATE, &NORMALIZE] {
            compare(call, &[bad], first);
        }
        for call in [&SUBSUMES, &LCS, &VERIFY] {
            compare(call, &[bad, &good, &[]], first);
            compare(call, &[&good, bad, &[]], second);
        }
        compare(&MOST_SPECIFIC, &[bad, &good_book], first);
        compare(&MOST_SPECIFIC, &[&good, &bad_card], card);
    }
}

/// Each question that refuses the first with each that refuses the second.
fn refused_pairs(both: &mut Both, rng: &mut Rng) {
    let pictures: Vec<Vec<u8>> = std::iter::once(encode(&[root()])).chain(QUESTIONS.map(refused)).collect();
    for (number, first) in pictures.iter().enumerate() {
        both.subject = format!("picture refused by hand {number}");
        exact(both, &VALIDATE, &[first], Fill::Random, rng);
        exact(both, &NORMALIZE, &[first], Fill::Random, rng);
        for second in &pictures {
            for call in [&SUBSUMES, &LCS, &VERIFY] {
                exact(both, call, &[first, second, &[]], Fill::Random, rng);
            }
            for book in [book::encode(&[second.clone()]), second.clone()] {
                exact(both, &MOST_SPECIFIC, &[first, &book], Fill::Random, rng);
            }
        }
    }
}

/// Each card of a full book refused by each question, alone and with one after it.
fn refused_cards(both: &mut Both, rng: &mut Rng) {
    let case = encode(&[root()]);
    for card in 0..MAX_CARDS {
        for question in QUESTIONS {
            let mut cards = vec![case.clone(); MAX_CARDS];
            cards[card] = refused(question);
            both.subject = format!("card {card} refused by {question}");
            exact(both, &MOST_SPECIFIC, &[&case, &book::encode(&cards)], Fill::Random, rng);
            cards[MAX_CARDS - 1] = refused(3);
            exact(both, &MOST_SPECIFIC, &[&case, &book::encode(&cards)], Fill::Random, rng);
        }
    }
}
