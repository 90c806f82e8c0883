//! How often each answer to a pair was met.

use super::reference::table::MAX_BYTES;
use super::reference::{outcome, value, INDIVIDUAL_BYTES, NO, YES};

#[derive(Default)]
pub struct Tally {
    pairs: u64,
    yes: u64,
    no: u64,
    largest: u64,
    checks: u64,
    maps: u64,
    refutations: u64,
    common: u64,
    /// Common pictures as large as may be.
    full: u64,
}

impl Tally {
    /// Of the verdict.
    pub fn verdict(&mut self, word: u64) {
        self.pairs += 1;
        self.yes += u64::from(outcome(word) == YES);
        self.no += u64::from(outcome(word) == NO);
        self.largest += u64::from(outcome(word) == NO && value(word) > 3_000 * INDIVIDUAL_BYTES);
    }

    /// Of a common picture.
    pub fn common(&mut self, word: u64) {
        self.common += 1;
        self.full += u64::from(value(word) == MAX_BYTES);
    }

    /// Of the check.
    pub fn check(&mut self, word: u64) {
        self.checks += 1;
        self.maps += u64::from(outcome(word) == YES);
        self.refutations += u64::from(outcome(word) == NO);
    }

    /// Every answer that has to occur, with how often it did.
    pub fn answers(&self) -> Vec<(String, u64)> {
        vec![
            ("yes".to_string(), self.yes),
            ("no".to_string(), self.no),
            ("refutation of more than 3,000 individuals".to_string(), self.largest),
            ("map taken".to_string(), self.maps),
            ("refutation taken".to_string(), self.refutations),
            ("common picture".to_string(), self.common),
            ("common picture of 256 rows".to_string(), self.full),
        ]
    }

    pub fn print(&self) {
        println!("pairs: {}, yes {}, no {}", self.pairs, self.yes, self.no);
        println!("evidence: {}, maps taken {}, refutations taken {}", self.checks, self.maps, self.refutations);
        println!("common pictures: {}, of 256 rows {}", self.common, self.full);
    }
}
