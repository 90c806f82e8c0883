//! The cards of a book that subsume a case, each compared with each; the most specific ones by the rule as it is
//! stated, without shortcuts, and what follows from it.

use super::library;
use super::reference::homomorphism::Search;
use super::reference::table::Table;
use super::reference::{normal, outcome, MAX_EVIDENCE_BYTES, NOTHING, WORK_BYTES, YES};

/// A card that subsumes the case.
pub struct Card<'a> {
    pub file: &'a [u8],
    number: usize,
    /// The cards that it subsumes, of those that subsume the case.
    subsumed: u32,
    /// Is above another one of these. None is above itself.
    pub is_passed_over: bool,
}

impl Card<'_> {
    fn is_in(&self, set: u32) -> bool {
        set >> self.number & 1 == 1
    }

    fn subsumes(&self, other: &Card) -> bool {
        other.is_in(self.subsumed)
    }

    pub fn is_equivalent(&self, other: &Card) -> bool {
        self.subsumes(other) && other.subsumes(self)
    }

    /// Subsumes the other one, which does not subsume it in return.
    pub fn is_above(&self, other: &Card) -> bool {
        self.subsumes(other) && !other.subsumes(self)
    }
}

pub struct CardOrder<'a> {
    /// In the book's order.
    pub cards: Vec<Card<'a>>,
}

impl<'a> CardOrder<'a> {
    /// By the reference, of files that have normal tables.
    pub fn by_tables(case: &[u8], cards: &'a [Vec<u8>]) -> CardOrder<'a> {
        let case = normal_table(case);
        let tables: Vec<Table> = cards.iter().map(|card| normal_table(card)).collect();
        let maps = |general: &Table, specific: &Table| Search::new(specific, general).run();
        CardOrder::new(cards, |card| maps(&tables[card], &case), |one, other| maps(&tables[one], &tables[other]))
    }

    /// By the library's verdicts.
    pub fn by_verdicts(case: &[u8], cards: &'a [Vec<u8>]) -> CardOrder<'a> {
        CardOrder::new(cards, |card| verdict(&cards[card], case), |one, other| verdict(&cards[one], &cards[other]))
    }

    fn new(
        files: &'a [Vec<u8>],
        subsumes_case: impl Fn(usize) -> bool,
        subsumes: impl Fn(usize, usize) -> bool,
    ) -> CardOrder<'a> {
        let covering: Vec<usize> = (0..files.len()).filter(|&number| subsumes_case(number)).collect();
        let subsumed =
            |one: usize| covering.iter().filter(|&&other| subsumes(one, other)).map(|other| 1 << other).sum();
        let card =
            |&number: &usize| Card { file: &files[number], number, subsumed: subsumed(number), is_passed_over: false };
        let mut cards: Vec<Card> = covering.iter().map(card).collect();
        for at in 0..cards.len() {
            cards[at].is_passed_over = cards.iter().any(|other| cards[at].is_above(other));
        }
        CardOrder { cards }
    }

    pub fn found(&self) -> impl Iterator<Item = &Card<'a>> {
        self.cards.iter().filter(|card| !card.is_passed_over)
    }

    /// The set of the most specific cards.
    pub fn most_specific(&self) -> u32 {
        self.found().map(|card| 1 << card.number).sum()
    }

    /// Each card with each later one.
    pub fn pairs(&self) -> impl Iterator<Item = (&Card<'a>, &Card<'a>)> {
        let with_later = |(at, card)| self.cards[at + 1..].iter().map(move |later| (card, later));
        self.cards.iter().enumerate().flat_map(with_later)
    }

    /// The set is not empty exactly if some card subsumes the case.
    pub fn some_is_found(&self, set: u32) -> bool {
        (set != 0) == !self.cards.is_empty()
    }

    /// Each card subsumes one that is in the set.
    pub fn each_subsumes_found(&self, set: u32) -> bool {
        self.cards.iter().all(|card| self.cards.iter().any(|other| other.is_in(set) && card.subsumes(other)))
    }

    /// Equivalent cards are found together or not at all.
    pub fn equivalent_are_together(&self, set: u32) -> bool {
        self.pairs().all(|(one, other)| !one.is_equivalent(other) || one.is_in(set) == other.is_in(set))
    }
}

fn normal_table(file: &[u8]) -> Table {
    let (mut picture, mut table) = (Table::EMPTY, Table::EMPTY);
    let made = picture.read(file).is_ok() && normal::normalize(&picture, &mut table).is_ok();
    assert!(made, "there is a normal table where nothing was refused");
    table
}

/// Does the general picture subsume the specific one?
fn verdict(general: &[u8], specific: &[u8]) -> bool {
    let (mut work, mut result) = (vec![0; WORK_BYTES], vec![0; MAX_EVIDENCE_BYTES]);
    outcome(library::subsumes(NOTHING, specific, general, &mut work, &mut result)) == YES
}
