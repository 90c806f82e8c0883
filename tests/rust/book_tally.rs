//! How often each answer of the most specific cards was met.

use super::card_order::{Card, CardOrder};
use super::reference::{outcome, value, YES};

/// What the cards that subsume a case can be, each with how it is told.
const KINDS: [(&str, fn(&CardOrder) -> bool); 13] = [
    ("earlier card passed over", |order| order.pairs().any(|(earlier, later)| earlier.is_above(later))),
    ("later card passed over", |order| order.pairs().any(|(earlier, later)| later.is_above(earlier))),
    ("equivalent cards found", |order| twins(order).next().is_some()),
    ("equivalent cards found, same bytes", |order| twins(order).any(|(one, other)| one.file == other.file)),
    ("equivalent cards found, other bytes", |order| twins(order).any(|(one, other)| one.file != other.file)),
    ("equivalent cards found, two groups", |order| {
        twins(order).next().is_some_and(|(one, _)| twins(order).any(|(other, _)| !one.is_equivalent(other)))
    }),
    ("equivalent cards found, one above", |order| {
        twins(order).any(|(one, _)| order.cards.iter().any(|card| card.is_above(one)))
    }),
    ("equivalent cards passed over", |order| {
        order.pairs().any(|(one, other)| one.is_equivalent(other) && one.is_passed_over)
    }),
    ("all equivalent", |order| are_many(order) && order.pairs().all(|(one, other)| one.is_equivalent(other))),
    ("none comparable", |order| {
        are_many(order) && order.found().count() == order.cards.len() && twins(order).next().is_none()
    }),
    ("chain, specific first", |order| is_chain(order, |earlier, later| later.is_above(earlier))),
    ("chain, specific last", |order| is_chain(order, |earlier, later| earlier.is_above(later))),
    ("chain, any order", |order| is_chain(order, |one, other| one.is_above(other) || other.is_above(one))),
];

/// Pairs of equivalent cards that are found.
fn twins<'a>(order: &'a CardOrder) -> impl Iterator<Item = (&'a Card<'a>, &'a Card<'a>)> {
    order.pairs().filter(|(one, other)| one.is_equivalent(other) && !one.is_passed_over)
}

fn are_many(order: &CardOrder) -> bool {
    order.cards.len() > 3
}

/// Three cards and more, one above the other, in this order; there may be equivalent ones among them.
fn is_chain(order: &CardOrder, in_order: fn(&Card, &Card) -> bool) -> bool {
    let is_third = |card: &Card| order.cards.iter().any(|other| card.is_above(other) && other.is_passed_over);
    order.cards.iter().any(is_third)
        && order.pairs().all(|(earlier, later)| in_order(earlier, later) || earlier.is_equivalent(later))
}

#[derive(Default)]
pub struct BookTally {
    books: u64,
    /// By the number of cards in the set, up to 3 or more.
    found: [u64; 4],
    empty: u64,
    full: u64,
    last: u64,
    /// Books whose cards were compared one by one, and of those, cards that were passed over.
    compared: u64,
    passed_over: u64,
    kinds: [u64; KINDS.len()],
}

impl BookTally {
    /// The word for a book of so many cards.
    pub fn count(&mut self, word: u64, cards: usize) {
        self.books += 1;
        if outcome(word) != YES {
            return;
        }
        let set = value(word) as u32;
        self.found[set.count_ones().min(3) as usize] += 1;
        self.empty += u64::from(cards == 0);
        self.full += u64::from(cards == 32);
        self.last += u64::from(set >> 31);
    }

    /// The cards of a book, compared.
    pub fn compared(&mut self, order: &CardOrder) {
        self.compared += 1;
        self.passed_over += order.cards.iter().filter(|card| card.is_passed_over).count() as u64;
        for (met, (_, is_met)) in self.kinds.iter_mut().zip(KINDS) {
            *met += u64::from(is_met(order));
        }
    }

    fn kinds(&self) -> impl Iterator<Item = (String, u64)> + '_ {
        KINDS.iter().zip(self.kinds).map(|((name, _), met)| (name.to_string(), met))
    }

    /// Every answer that has to occur, with how often it did.
    pub fn answers(&self) -> Vec<(String, u64)> {
        let mut answers = vec![
            ("book without cards".to_string(), self.empty),
            ("book of 32 cards".to_string(), self.full),
            ("card 31 found".to_string(), self.last),
        ];
        answers.extend((0..4).map(|count| (format!("{count} cards found"), self.found[count])));
        answers.extend(self.kinds());
        answers
    }

    pub fn print(&self) {
        println!("books: {}, answered {}", self.books, self.found.iter().sum::<u64>());
        println!("cards found, none, 1, 2, more: {:?}; card 31: {}", self.found, self.last);
        println!("books compared: {}, cards passed over {}", self.compared, self.passed_over);
        for (name, met) in self.kinds() {
            println!("  {name}: {met}");
        }
    }
}
