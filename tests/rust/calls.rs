//! The six calls, each by the library and by the reference, with what it needs and what it can refuse.

use super::library;
use super::reference::table::MAX_BYTES;
use super::reference::Input::{self, Book, Buffer, Card, Definition, Definitions, Evidence, First, Second};
use super::reference::{self, Under, MAX_EVIDENCE_BYTES, WORK_BYTES};

/// What the call is made under, the files that are read, the work space and the result buffer.
type Side = fn(Under, &[&[u8]], &mut [u8], &mut [u8]) -> u64;

pub struct Call {
    pub name: &'static str,
    /// By this number the calls are told apart.
    pub number: usize,
    /// The bytes that a buffer lent for writing needs; 0 where the call has none.
    pub work: usize,
    pub result: usize,
    /// Every refusal there is without definitions: an input, and the questions from one to another that can refuse it.
    /// Which rows a question can name is the same for all.
    refusals: &'static [(Input, u8, u8)],
    pub library: Side,
    pub reference: Side,
}

impl Call {
    /// Every refusal there is.
    pub fn all_refusals(&self) -> Vec<(Input, u8, u8)> {
        let mut all = self.refusals.to_vec();
        if self.number != VALIDATE.number {
            all.extend([(Definitions, 25, 26), (Definitions, 28, 28), (Definition, 2, 13)]);
            let pictures = self.refusals.iter().filter(|(_, first, _)| *first == 2).map(|(input, ..)| *input);
            all.extend(pictures.chain([Definition]).flat_map(|input| [(input, 27, 27), (input, 29, 30)]));
        }
        all
    }
}

pub const VALIDATE: Call = Call {
    name: "validate",
    number: 0,
    work: 0,
    result: 0,
    refusals: &[(First, 2, 13)],
    library: |_, files, _, _| library::validate(files[0]),
    reference: |_, files, _, _| reference::validate(files[0]),
};

pub const NORMALIZE: Call = Call {
    name: "normalize",
    number: 1,
    work: 0,
    result: MAX_BYTES,
    refusals: &[(Buffer, 1, 1), (First, 2, 14)],
    library: |under, files, _, result| library::normalize(under, files[0], result),
    reference: |under, files, _, result| reference::normalize(under, files[0], result),
};

pub const SUBSUMES: Call = Call {
    name: "subsumes",
    number: 2,
    work: WORK_BYTES,
    result: MAX_EVIDENCE_BYTES,
    refusals: &[(Buffer, 1, 1), (First, 2, 14), (Second, 2, 14)],
    library: |under, files, work, result| library::subsumes(under, files[0], files[1], work, result),
    reference: |under, files, work, result| reference::subsumes(under, files[0], files[1], work, result),
};

pub const LCS: Call = Call {
    name: "lcs",
    number: 3,
    work: WORK_BYTES,
    result: MAX_BYTES,
    refusals: &[(Buffer, 1, 1), (First, 2, 14), (Second, 2, 15)],
    library: |under, files, work, result| library::lcs(under, files[0], files[1], work, result),
    reference: |under, files, work, result| reference::lcs(under, files[0], files[1], work, result),
};

pub const VERIFY: Call = Call {
    name: "verify",
    number: 4,
    work: WORK_BYTES,
    result: 0,
    refusals: &[(Buffer, 1, 1), (First, 2, 14), (Second, 2, 14), (Evidence, 16, 23)],
    library: |under, files, work, _| library::verify(under, files[0], files[1], files[2], work),
    reference: |under, files, work, _| reference::verify(under, files[0], files[1], files[2], work),
};

pub const MOST_SPECIFIC: Call = Call {
    name: "most_specific",
    number: 5,
    work: WORK_BYTES,
    result: 0,
    refusals: &[(Buffer, 1, 1), (First, 2, 14), (Book, 24, 24), (Card, 2, 14)],
    library: |under, files, work, _| library::most_specific(under, files[0], files[1], work),
    reference: |under, files, work, _| reference::most_specific(under, files[0], files[1], work),
};

pub const CALLS: [&Call; 6] = [&VALIDATE, &NORMALIZE, &SUBSUMES, &LCS, &VERIFY, &MOST_SPECIFIC];
