//! A call made by both, the library and the reference, with the same bytes lent, and what came back compared.

use super::calls::{Call, SUBSUMES};
use super::checks::{hex, Checks};
use super::lent::{any_length, Fill, Lent, Noise};
use super::library;
use super::reference::{answer, outcome, question, value, Under, NO, NOTHING, WORK_BYTES, YES};
use super::refusals::Refusals;
use super::rng::Rng;

/// The words of both.
#[derive(Clone, Copy)]
pub struct Words {
    pub expected: u64,
    pub actual: u64,
}

impl Words {
    pub fn refused(&self) -> bool {
        outcome(self.expected) != YES && outcome(self.expected) != NO
    }
}

pub struct Both {
    pub checks: Checks,
    pub refusals: Refusals,
    pub work: Lent,
    pub result: Lent,
    /// What is being compared, for the description of a mismatch.
    pub subject: String,
    /// The definitions that calls are made under; none at first.
    pub definitions: Vec<u8>,
    noise: Noise,
}

impl Both {
    pub fn new() -> Both {
        Both {
            checks: Checks::default(),
            refusals: Refusals::default(),
            work: Lent::default(),
            result: Lent::default(),
            subject: String::new(),
            definitions: NOTHING.definitions.to_vec(),
            noise: Noise::new(),
        }
    }

    pub fn under(&self) -> Under<'_> {
        Under { definitions: &self.definitions }
    }

    pub fn check(&mut self, ok: bool, what: &str, words: Words, files: &[&[u8]]) {
        let (subject, definitions) = (&self.subject, &self.definitions);
        self.checks.check(ok, || {
            let Words { expected, actual } = words;
            let files: String = files.iter().map(|file| format!("\n  file {}", hex(file))).collect();
            let under = hex(definitions);
            format!("{what}: {subject}\n  library {actual:016x}, reference {expected:016x}\n  under {under}{files}")
        });
    }

    /// The call with buffers of any length that hold anything.
    pub fn any(&mut self, call: &Call, files: &[&[u8]], rng: &mut Rng) -> Words {
        let (work, result) = (any_length(call.work, rng), any_length(call.result, rng));
        self.with(call, files, work, result, Fill::Random, rng)
    }

    /// The call with so many bytes of work space and of result buffer.
    pub fn with(
        &mut self,
        call: &Call,
        files: &[&[u8]],
        work: usize,
        result: usize,
        fill: Fill,
        rng: &mut Rng,
    ) -> Words {
        self.noise.lend(&mut self.work, work, fill, rng);
        self.noise.lend(&mut self.result, result, fill, rng);
        let under = Under { definitions: &self.definitions };
        let (expected_work, expected_result) = (&mut self.work.expected[..work], &mut self.result.expected[..result]);
        let expected = (call.reference)(under, files, expected_work, expected_result);
        let actual = (call.library)(under, files, &mut self.work.actual[..work], &mut self.result.actual[..result]);
        let words = Words { expected, actual };
        self.check(self.work.agree(), call.name, words, files);
        if call.number == SUBSUMES.number && outcome(expected) == NO {
            self.check(self.is_refutation(words, files), call.name, words, files);
        } else {
            self.check(expected == actual && self.result.agree(), call.name, words, files);
        }
        if words.refused() {
            self.refusals.count(call, expected);
            let written = (15..=23).contains(&question(expected));
            self.check(self.result.untouched(), "refused, result", words, files);
            self.check(written || self.work.untouched(), "refused, work space", words, files);
        }
        words
    }

    /// Which refutation is written is the library's choice. The word is a no of nothing but a length, what is past that
    /// length is as it was, and the evidence is taken.
    fn is_refutation(&self, words: Words, files: &[&[u8]]) -> bool {
        let length = value(words.actual);
        let taken = |evidence: &[u8]| {
            library::verify(self.under(), files[0], files[1], evidence, &mut [0; WORK_BYTES]) == answer(NO, 0)
        };
        words.actual == answer(NO, length)
            && length <= self.result.length
            && self.result.actual[length..] == self.result.before[length..]
            && taken(&self.result.actual[..length])
    }
}
