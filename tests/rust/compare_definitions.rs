//! Pictures, cases and books under definitions at random, given to both.

use super::both::Both;
use super::calls::{LCS, MOST_SPECIFIC, NORMALIZE, SUBSUMES, VERIFY};
use super::defined::{defined, Defined};
use super::reference::definitions::Definitions;
use super::reference::table::{Table, ROW_BYTES};
use super::reference::{outcome, question, value, NO, NOTHING, YES};
use super::rng::Rng;
use super::{book, books, damage, pairs};

/// How often something was met, by what it is called.
const MET: [&str; 9] = [
    "verdict yes",
    "verdict no",
    "map taken",
    "refutation taken",
    "common picture",
    "cards found",
    "rows gained",
    "rows gained by gained rows",
    "over 200 rows when unfolded",
];

#[derive(Default)]
pub struct DefinitionComparison {
    books: u64,
    accepted: u64,
    met: [u64; MET.len()],
}

impl DefinitionComparison {
    /// Makes definitions and what is given with them, and compares all calls that take them.
    pub fn definitions(&mut self, both: &mut Both, seed: u64, rng: &mut Rng) {
        let made = defined(rng);
        both.subject = format!("seed {seed}, {} definitions", made.names.len());
        both.definitions = made.book.clone();
        self.books += 1;
        self.pair(both, &made, rng);
        self.lookup(both, &made, rng);
        both.definitions = NOTHING.definitions.to_vec();
    }

    fn count(&mut self, what: &str, is_met: bool) {
        let at = MET.iter().position(|&name| name == what).expect("something that is counted");
        self.met[at] += u64::from(is_met);
    }

    fn pair(&mut self, both: &mut Both, made: &Defined, rng: &mut Rng) {
        let mut pair = pairs::pair(rng);
        for picture in [&mut pair.first, &mut pair.second] {
            made.mention(picture, rng);
        }
        // Often the same names at the same rows, so that the second may subsume the first.
        if rng.chance(1, 2) {
            pair.second = pair.first.clone();
            if rng.chance(1, 2) {
                made.mention(&mut pair.second, rng);
            }
        }
        if rng.chance(1, 16) {
            damage::picture(&mut pair.first, rng);
        }
        let files: [&[u8]; 2] = [&pair.first, &pair.second];
        let normalized = both.any(&NORMALIZE, &files[..1], rng).expected;
        self.unfolded(both, files[0], normalized);
        let common = both.any(&LCS, &files, rng).expected;
        self.count("common picture", outcome(common) == YES);
        let words = both.any(&SUBSUMES, &files, rng);
        self.count("verdict yes", outcome(words.expected) == YES);
        self.count("verdict no", outcome(words.expected) == NO);
        if words.refused() {
            self.verify(both, &files, &[], rng);
            return;
        }
        let theirs = both.result.actual[..value(words.actual).min(both.result.length)].to_vec();
        let ours = both.result.expected[..value(words.expected)].to_vec();
        for mut evidence in [ours, theirs] {
            self.verify(both, &files, &evidence, rng);
            damage::evidence(&mut evidence, rng);
            self.verify(both, &files, &evidence, rng);
        }
    }

    fn verify(&mut self, both: &mut Both, files: &[&[u8]; 2], evidence: &[u8], rng: &mut Rng) {
        let word = both.any(&VERIFY, &[files[0], files[1], evidence], rng).expected;
        self.count("map taken", outcome(word) == YES);
        self.count("refutation taken", outcome(word) == NO);
    }

    fn lookup(&mut self, both: &mut Both, made: &Defined, rng: &mut Rng) {
        let mut book = books::book(rng);
        made.mention(&mut book.case, rng);
        book.cards.iter_mut().for_each(|card| made.mention(card, rng));
        let mut file = book::encode(&book.cards);
        if rng.chance(1, 32) {
            damage::book(&mut file, rng);
        }
        let word = both.any(&MOST_SPECIFIC, &[&book.case, &file], rng).expected;
        self.count("cards found", outcome(word) == YES && value(word) != 0);
    }

    /// What a picture became that was not refused by 25 to 30.
    fn unfolded(&mut self, both: &Both, picture: &[u8], word: u64) {
        if outcome(word) != YES && question(word) != 14 {
            return;
        }
        self.accepted += 1;
        let mut table = Table::EMPTY;
        table.read(picture).unwrap_or_else(|_| unreachable!("it was read"));
        let definitions = Definitions::read(&both.definitions).expect("they were read");
        let unfolded = definitions.unfold(&table);
        let own = picture.len() / ROW_BYTES;
        let gained = &unfolded.rows[own..unfolded.count];
        self.count("rows gained", !gained.is_empty());
        self.count("rows gained by gained rows", gained.iter().any(|row| usize::from(row.parent) > own));
        self.count("over 200 rows when unfolded", unfolded.count > 200 && !gained.is_empty());
    }

    /// Every answer occurs; says how often.
    pub fn check_tally(&self, both: &mut Both) {
        println!("definitions: {} books, {} accepted", self.books, self.accepted);
        let answers: Vec<(String, u64)> =
            MET.iter().zip(self.met).map(|(name, met)| (format!("under definitions, {name}"), met)).collect();
        for (name, met) in &answers {
            println!("  {name}: {met}");
        }
        both.checks.check_met(answers);
    }
}
