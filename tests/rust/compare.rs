//! Pairs of pictures at random, given to both, and evidence for them, whole and damaged.

use super::both::{Both, Words};
use super::calls::{LCS, NORMALIZE, SUBSUMES, VALIDATE, VERIFY};
use super::reference::table::{MAX_BYTES, ROW_BYTES};
use super::reference::{answer, outcome, value, Input, MAX_EVIDENCE_BYTES, NO, WORK_BYTES, YES};
use super::rng::Rng;
use super::tally::Tally;
use super::{damage, library, pairs, reference};

const DAMAGES: usize = 3;

#[derive(Default)]
pub struct Comparison {
    tally: Tally,
    first: Vec<u8>,
    second: Vec<u8>,
}

impl Comparison {
    /// Makes a pair and compares all calls on it.
    pub fn pair(&mut self, both: &mut Both, seed: u64, rng: &mut Rng) {
        let mut pair = pairs::pair(rng);
        for picture in [&mut pair.first, &mut pair.second] {
            if rng.chance(1, 8) {
                damage::picture(picture, rng);
                pair.subsumes = false;
            }
        }
        both.subject = format!("seed {seed}, {:?}", pair.shape);
        (self.first, self.second) = (pair.first, pair.second);
        self.single(both, rng);
        self.common(both, rng);
        let Some((ours, theirs)) = self.verdict(both, rng) else {
            self.verify(both, &[0], rng);
            return;
        };
        if pair.subsumes {
            let words = Words { expected: YES, actual: NO };
            both.check(ours[0] == reference::TAG_MAP, "the second was made to subsume", words, &self.files());
        }
        let limit = 1 + rng.below(self.first.len() / ROW_BYTES);
        let rows = table_rows(&both.work.expected[MAX_BYTES..]) + rng.below(3) / 2;
        for evidence in [ours, theirs] {
            self.evidence(both, &evidence, rng);
        }
        self.verify(both, &damage::random_map(rows, limit, rng), rng);
        self.verify(both, &damage::random_refutation(rng), rng);
        self.verify(both, &[], rng);
    }

    fn files(&self) -> [&[u8]; 2] {
        [&self.first, &self.second]
    }

    /// The calls on one picture.
    fn single(&self, both: &mut Both, rng: &mut Rng) {
        let picture = rng.pick(&self.files());
        both.any(&VALIDATE, &[picture], rng);
        both.any(&NORMALIZE, &[picture], rng);
    }

    /// The common picture.
    fn common(&mut self, both: &mut Both, rng: &mut Rng) {
        let words = both.any(&LCS, &self.files(), rng);
        if words.refused() {
            return;
        }
        self.tally.common(words.expected);
        let common = both.result.expected[..value(words.expected)].to_vec();
        let validated = Words { expected: answer(YES, common.len() / ROW_BYTES), actual: library::validate(&common) };
        both.check(validated.expected == validated.actual, "lcs, picture", validated, &self.files());
        self.subsuming(both, &common);
    }

    /// A common picture subsumes both, unless its merged table is too large.
    fn subsuming(&self, both: &mut Both, common: &[u8]) {
        let (mut work, mut result) = (vec![0; WORK_BYTES], vec![0; MAX_EVIDENCE_BYTES]);
        let too_large = reference::refusal(Input::Second, 14);
        for specific in self.files() {
            let word = library::subsumes(both.under(), specific, common, &mut work, &mut result);
            let words = Words { expected: answer(YES, 0), actual: word };
            both.check(word == too_large || outcome(word) == YES, "lcs subsumes", words, &self.files());
        }
    }

    /// The verdict; the evidence of both, unless there was a refusal.
    fn verdict(&mut self, both: &mut Both, rng: &mut Rng) -> Option<(Vec<u8>, Vec<u8>)> {
        let words = both.any(&SUBSUMES, &self.files(), rng);
        self.tally.verdict(words.expected);
        if words.refused() {
            return None;
        }
        let length = value(words.actual).min(both.result.length);
        Some((both.result.expected[..value(words.expected)].to_vec(), both.result.actual[..length].to_vec()))
    }

    /// Evidence that has to be taken, and then the same damaged.
    fn evidence(&mut self, both: &mut Both, evidence: &[u8], rng: &mut Rng) {
        let taken = answer(if evidence.first() == Some(&reference::TAG_MAP) { YES } else { NO }, 0);
        let words = self.verify(both, evidence, rng);
        let short = both.work.length < WORK_BYTES;
        let Words { expected, .. } = words;
        both.check(short || expected == taken, "evidence is taken", words, &[&self.first, &self.second, evidence]);
        for _ in 0..DAMAGES {
            let mut damaged = evidence.to_vec();
            for _ in 0..1 + rng.below(2) {
                damage::evidence(&mut damaged, rng);
            }
            self.verify(both, &damaged, rng);
        }
    }

    fn verify(&mut self, both: &mut Both, evidence: &[u8], rng: &mut Rng) -> Words {
        let words = both.any(&VERIFY, &[&self.first, &self.second, evidence], rng);
        self.tally.check(words.expected);
        words
    }

    /// Every answer occurs; says how often.
    pub fn check_tally(&self, both: &mut Both) {
        self.tally.print();
        both.checks.check_met(self.tally.answers());
    }
}

/// Rows of a table in the work space.
fn table_rows(table: &[u8]) -> usize {
    table.chunks_exact(ROW_BYTES).take_while(|field| field[0] == reference::table::TAG_ROW).count()
}
