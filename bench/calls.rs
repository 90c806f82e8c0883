//! The six calls, each with its sides: the library, the same call in Rust and, where there is one, in plain C.

use super::reference::{outcome, value, Under, MAX_EVIDENCE_BYTES, NO, NOTHING, WORK_BYTES};
use super::{library, plain, reference};

/// What a call reads; the parts that it does not ask for are empty.
#[derive(Default, PartialEq)]
pub struct Input {
    /// The picture, the first picture or the case.
    pub first: Vec<u8>,
    /// The second picture or the book.
    pub second: Vec<u8>,
    pub evidence: Vec<u8>,
    /// Empty where there are none.
    pub definitions: Vec<u8>,
}

impl Input {
    fn under(&self) -> Under<'_> {
        match self.definitions[..] {
            [] => NOTHING,
            _ => Under { definitions: &self.definitions },
        }
    }
}

/// What a call writes.
#[derive(PartialEq)]
pub struct Buffers {
    pub work: Vec<u8>,
    pub result: Vec<u8>,
}

impl Buffers {
    /// Bytes that no call writes everywhere, so that one left out or written beyond a result shows.
    pub fn new() -> Buffers {
        Buffers { work: vec![0xA5; WORK_BYTES], result: vec![0xA5; MAX_EVIDENCE_BYTES] }
    }
}

pub type Side = fn(&Input, &mut Buffers) -> u64;

/// The answer word, and the buffers after the call.
#[derive(PartialEq)]
pub struct Answer {
    pub word: u64,
    buffers: Buffers,
}

pub struct Call {
    pub name: &'static str,
    pub library: Side,
    pub rust: Side,
    pub plain: Option<Side>,
    /// May two sides answer so?
    pub agree: fn(&Input, &Answer, &Answer) -> bool,
}

impl Call {
    pub fn answer(side: Side, input: &Input) -> Answer {
        let mut buffers = Buffers::new();
        let word = side(input, &mut buffers);
        Answer { word, buffers }
    }
}

fn same(_: &Input, one: &Answer, other: &Answer) -> bool {
    one == other
}

/// Which refutation is written is free: each has to be taken.
fn same_verdict(input: &Input, one: &Answer, other: &Answer) -> bool {
    let taken = |answer: &Answer| {
        let evidence = &answer.buffers.result[..value(answer.word)];
        outcome(reference::verify(input.under(), &input.first, &input.second, evidence, &mut vec![0; WORK_BYTES])) == NO
    };
    let refuted = |answer: &Answer| outcome(answer.word) == NO && taken(answer);
    one == other || refuted(one) && refuted(other) && one.buffers.work == other.buffers.work
}

pub const VALIDATE: Call = Call {
    name: "validate",
    library: |input, _| library::validate(&input.first),
    rust: |input, _| reference::validate(&input.first),
    plain: Some(|input, _| plain::validate(&input.first)),
    agree: same,
};

pub const NORMALIZE: Call = Call {
    name: "normalize",
    library: |input, buffers| library::normalize(input.under(), &input.first, &mut buffers.result),
    rust: |input, buffers| reference::normalize(input.under(), &input.first, &mut buffers.result),
    plain: Some(|input, buffers| plain::normalize(&input.first, &mut buffers.result)),
    agree: same,
};

pub const SUBSUMES: Call = Call {
    name: "subsumes",
    library: |input, buffers| {
        library::subsumes(input.under(), &input.first, &input.second, &mut buffers.work, &mut buffers.result)
    },
    rust: |input, buffers| {
        reference::subsumes(input.under(), &input.first, &input.second, &mut buffers.work, &mut buffers.result)
    },
    plain: None,
    agree: same_verdict,
};

pub const VERIFY: Call = Call {
    name: "verify",
    library: |input, buffers| {
        library::verify(input.under(), &input.first, &input.second, &input.evidence, &mut buffers.work)
    },
    rust: |input, buffers| {
        reference::verify(input.under(), &input.first, &input.second, &input.evidence, &mut buffers.work)
    },
    plain: Some(|input, buffers| plain::verify(&input.first, &input.second, &input.evidence, &mut buffers.work)),
    agree: same,
};

pub const LCS: Call = Call {
    name: "lcs",
    library: |input, buffers| {
        library::lcs(input.under(), &input.first, &input.second, &mut buffers.work, &mut buffers.result)
    },
    rust: |input, buffers| {
        reference::lcs(input.under(), &input.first, &input.second, &mut buffers.work, &mut buffers.result)
    },
    plain: None,
    agree: same,
};

pub const MOST_SPECIFIC: Call = Call {
    name: "most_specific",
    library: |input, buffers| library::most_specific(input.under(), &input.first, &input.second, &mut buffers.work),
    rust: |input, buffers| reference::most_specific(input.under(), &input.first, &input.second, &mut buffers.work),
    plain: None,
    agree: same,
};

/// A call under definitions, which the plain C has not.
pub const fn under(call: Call) -> Call {
    Call { plain: None, ..call }
}
