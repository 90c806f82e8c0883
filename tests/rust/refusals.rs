//! How often each refusal was met, by row. Each that a call can give has to be, and no other.

use std::collections::HashMap;

use super::calls::{Call, CALLS};
use super::files::{places, rows, READING};
use super::reference::definitions::MAX_DEFINITIONS;
use super::reference::most_specific::MAX_CARDS;
use super::reference::{question, row, Input};

#[derive(Default)]
pub struct Refusals {
    /// By call, input, question and row.
    met: HashMap<(usize, usize, u8, usize), u64>,
    cards: [u64; MAX_CARDS],
    definitions: [u64; MAX_DEFINITIONS],
}

impl Refusals {
    pub fn count(&mut self, call: &Call, word: u64) {
        let input = (word >> 40) as usize & 0xFF;
        *self.met.entry((call.number, input, question(word), row(word))).or_default() += 1;
        let number = (word >> 32) as usize & 0xFF;
        if input == Input::Card as usize {
            self.cards[number] += 1;
        }
        if input == Input::Definition as usize {
            self.definitions[number] += 1;
        }
    }

    fn times(&self, call: &Call, input: Input, question: u8, row: usize) -> u64 {
        self.met.get(&(call.number, input as usize, question, row)).copied().unwrap_or(0)
    }

    /// Every refusal that has to occur, with how often it did.
    pub fn answers(&self) -> Vec<(String, u64)> {
        let mut answers = Vec::new();
        for call in CALLS {
            for (input, first, last) in call.all_refusals() {
                answers.extend(places(first..=last).map(|(question, row)| {
                    let times = self.times(call, input, question, row);
                    (format!("{} refused, {input:?}, {question}, row {row}", call.name), times)
                }));
            }
        }
        answers.extend((0..MAX_CARDS).map(|card| (format!("card {card} refused"), self.cards[card])));
        let definitions = self.definitions.iter().enumerate();
        answers.extend(definitions.map(|(number, &times)| (format!("definition {number} refused"), times)));
        answers
    }

    /// None occurred that no call can give.
    pub fn none_else(&self) -> bool {
        let given = CALLS.iter().flat_map(|call| call.all_refusals().into_iter().map(move |refusals| (call, refusals)));
        let listed = given.flat_map(|(call, (input, first, last))| {
            places(first..=last).map(move |(question, row)| self.times(call, input, question, row))
        });
        listed.sum::<u64>() == self.met.values().sum()
    }

    pub fn print(&self) {
        for call in CALLS {
            for (input, first, last) in call.all_refusals() {
                let met = |late: bool| -> Vec<u64> {
                    let at = |question: u8| rows(question).filter(move |&row| !late || row > 0);
                    let times = |question| at(question).map(|row| self.times(call, input, question, row)).sum();
                    (first..=last).map(times).collect()
                };
                println!("{} refused, {input:?}, {first} to {last}: {:?}", call.name, met(false));
                if READING.contains(&first) {
                    println!("  not at row 0: {:?}", met(true));
                }
            }
        }
    }
}
