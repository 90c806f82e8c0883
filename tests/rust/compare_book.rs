//! Cases and books at random, given to both.

use super::book_tally::BookTally;
use super::both::{Both, Words};
use super::calls::MOST_SPECIFIC;
use super::card_order::CardOrder;
use super::reference::table::KIND_EXISTS;
use super::reference::{outcome, value, WORK_BYTES, YES};
use super::rng::Rng;
use super::trees::{chain, encode, root, some, spread};
use super::{book, books, damage, reference};

#[derive(Default)]
pub struct BookComparison {
    tally: BookTally,
}

impl BookComparison {
    /// Makes a case and a book, and compares the call on them.
    pub fn book(&mut self, both: &mut Both, seed: u64, rng: &mut Rng) {
        let mut made = books::book(rng);
        spoil(&mut made, rng);
        let mut file = book::encode(&made.cards);
        let damaged = rng.chance(1, 10);
        if damaged {
            damage::book(&mut file, rng);
        }
        both.subject = format!("seed {seed}, book {:?}", made.shape);
        let files: [&[u8]; 2] = [&made.case, &file];
        let words = both.any(&MOST_SPECIFIC, &files, rng);
        self.tally.count(words.expected, made.cards.len());
        if words.refused() {
            return;
        }
        let zeros = both.work.actual[..WORK_BYTES].iter().all(|&byte| byte == 0);
        both.check(zeros, "most specific, zeros", words, &files);
        // A damaged book may be one of other cards.
        if !damaged {
            self.compared(both, &made, words, &files, rng);
        }
    }

    /// The set is that of the rule as it is stated, and has what follows from it.
    fn compared(&mut self, both: &mut Both, made: &books::Book, words: Words, files: &[&[u8]], rng: &mut Rng) {
        let order = CardOrder::by_tables(&made.case, &made.cards);
        self.tally.compared(&order);
        let set = value(words.actual) as u32;
        both.check(order.most_specific() == value(words.expected) as u32, "most specific, by the rule", words, files);
        both.check(order.some_is_found(set), "most specific, some is found", words, files);
        both.check(order.each_subsumes_found(set), "most specific, each subsumes one found", words, files);
        both.check(order.equivalent_are_together(set), "most specific, equivalent together", words, files);
        if rng.chance(1, 8) {
            let order = CardOrder::by_verdicts(&made.case, &made.cards);
            both.check(order.most_specific() == set, "most specific, by verdicts", words, files);
        }
    }

    /// Every answer occurs; says how often.
    pub fn check_tally(&self, both: &mut Both) {
        self.tally.print();
        both.checks.check_met(self.tally.answers());
    }
}

/// Seldom, the case or a card is one that 2 to 13 or 14 refuses; at times several are.
fn spoil(made: &mut books::Book, rng: &mut Rng) {
    if !rng.chance(1, 3) {
        return;
    }
    for _ in 0..1 + rng.below(3) {
        let at = rng.below(made.cards.len() + 2);
        let picture = made.cards.get_mut(at).unwrap_or(&mut made.case);
        match rng.below(16) {
            0 => picture.clear(),
            1..4 => *picture = encode(&spread(15, 15, 8)),
            4 => *picture = encode(&chain(13, KIND_EXISTS, 8, 0)),
            5 => *picture = encode(&[vec![root()], vec![some(0, 8, 0); 256]].concat()),
            _ if outcome(reference::validate(picture)) == YES => damage::picture(picture, rng),
            _ => (),
        }
    }
}
