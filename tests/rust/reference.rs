//! The calls of the library once more, sharing no code with it: what the library is compared with, and timed against.
//!
//! | Call            | Answer                                                 |
//! |-----------------|--------------------------------------------------------|
//! | `validate`      | rows of a picture                                      |
//! | `normalize`     | length of its normal table                             |
//! | `subsumes`      | verdict and length of its evidence                     |
//! | `verify`        | which evidence was taken                               |
//! | `lcs`           | length of the common picture                           |
//! | `most_specific` | set of the most specific cards that subsume a case     |
//!
//! All but `validate` are made under a book of definitions.
//!
//! Pictures are read once, into rows linked by number. Without definitions nothing is allocated: all is in the buffers
//! lent, or on the stack.

pub mod countermodel;
pub mod definitions;
pub mod evidence;
pub mod field;
pub mod homomorphism;
pub mod lcs;
pub mod most_specific;
pub mod normal;
pub mod table;

use definitions::Definitions;
use evidence::Taken;
use homomorphism::Search;
use table::{Refused, Table, HEAD_BYTES, MAX_BYTES, MAX_DEPTH, MAX_ROWS, TAG_END};

pub const ROLES: u8 = 32;

pub const TAG_MAP: u8 = 0x41;
pub const TAG_INDIVIDUAL: u8 = 0x42;
pub const INDIVIDUAL_VALUE_BYTES: usize = 11;
pub const INDIVIDUAL_BYTES: usize = HEAD_BYTES + INDIVIDUAL_VALUE_BYTES;
pub const MAX_INDIVIDUALS: usize = MAX_ROWS * (MAX_DEPTH as usize + 1);
pub const MAX_EVIDENCE_BYTES: usize = MAX_INDIVIDUALS * INDIVIDUAL_BYTES + HEAD_BYTES;
pub const WORK_BYTES: usize = 2 * MAX_BYTES;

pub const YES: u64 = 1;
pub const NO: u64 = 2;

/// What a refusal concerns.
#[derive(Clone, Copy, Debug)]
pub enum Input {
    Buffer = 0,
    First = 1,
    Second = 2,
    Evidence = 3,
    Book = 4,
    Card = 5,
    Definitions = 6,
    Definition = 7,
}

/// What every call but `validate` takes besides its own inputs.
#[derive(Clone, Copy)]
pub struct Under<'a> {
    pub definitions: &'a [u8],
}

/// No definitions: the end field alone.
pub const NOTHING: Under<'static> = Under { definitions: &[TAG_END, 0, 0] };

/// Of 1 and of 14 to 30: they name no place.
pub fn refusal(input: Input, question: u8) -> u64 {
    u64::from(question) << 48 | (input as u64) << 40
}

/// Of a picture that cannot be read.
pub fn refusal_at(input: Input, refused: Refused) -> u64 {
    let Refused { question, row, byte } = refused;
    refusal(input, question) | (row as u64) << 16 | byte as u64
}

/// A refusal of a card or of a definition, with its number.
pub fn of_card(card: usize, refusal: u64) -> u64 {
    refusal | (card as u64) << 32
}

pub fn answer(outcome: u64, value: usize) -> u64 {
    outcome << 56 | value as u64
}

pub fn outcome(word: u64) -> u64 {
    word >> 56
}

pub fn question(word: u64) -> u8 {
    (word >> 48) as u8
}

/// Of a refusal: the row that was being read.
pub fn row(word: u64) -> usize {
    usize::from((word >> 16) as u16)
}

pub fn value(word: u64) -> usize {
    word as u32 as usize
}

pub fn validate(picture: &[u8]) -> u64 {
    let mut table = Table::EMPTY;
    match table.read(picture) {
        Ok(()) => answer(YES, table.count),
        Err(refused) => refusal_at(Input::First, refused),
    }
}

pub fn normalize(under: Under, picture: &[u8], result: &mut [u8]) -> u64 {
    if result.len() < MAX_BYTES {
        return refusal(Input::Buffer, 1);
    }
    let mut table = Table::EMPTY;
    let mut normal = Table::EMPTY;
    if let Err(refused) = table.read(picture) {
        return refusal_at(Input::First, refused);
    }
    if let Err(refusal) = unfold(under, &mut [(&mut table, refusal(Input::First, 0))]) {
        return refusal;
    }
    match normal::normalize(&table, &mut normal) {
        Ok(()) => answer(YES, normal.write(result)),
        Err(normal::TooLarge) => refusal(Input::First, 14),
    }
}

/// The verdict with evidence: does the second picture subsume the first?
pub fn subsumes(under: Under, first: &[u8], second: &[u8], work: &mut [u8], result: &mut [u8]) -> u64 {
    if work.len() < WORK_BYTES || result.len() < MAX_EVIDENCE_BYTES {
        return refusal(Input::Buffer, 1);
    }
    let mut first_normal = Table::EMPTY;
    let mut second_normal = Table::EMPTY;
    if let Err(refusal) = prepare(under, first, second, &mut first_normal, &mut second_normal, work) {
        return refusal;
    }
    let mut search = Search::new(&first_normal, &second_normal);
    if search.run() {
        answer(YES, search.write_map(result))
    } else {
        answer(NO, countermodel::write(&first_normal, &second_normal, &search, result))
    }
}

pub fn verify(under: Under, first: &[u8], second: &[u8], evidence: &[u8], work: &mut [u8]) -> u64 {
    if work.len() < WORK_BYTES {
        return refusal(Input::Buffer, 1);
    }
    let mut first_normal = Table::EMPTY;
    let mut second_normal = Table::EMPTY;
    if let Err(refusal) = prepare(under, first, second, &mut first_normal, &mut second_normal, work) {
        return refusal;
    }
    match evidence::check(&first_normal, &second_normal, evidence) {
        Ok(Taken::Map) => answer(YES, 0),
        Ok(Taken::Refutation) => answer(NO, 0),
        Err(question) => refusal(Input::Evidence, question),
    }
}

/// The common picture: the least common subsumer of both.
pub fn lcs(under: Under, first: &[u8], second: &[u8], work: &mut [u8], result: &mut [u8]) -> u64 {
    if work.len() < WORK_BYTES || result.len() < MAX_BYTES {
        return refusal(Input::Buffer, 1);
    }
    let mut first_normal = Table::EMPTY;
    let mut second_normal = Table::EMPTY;
    if let Err(refusal) = prepare(under, first, second, &mut first_normal, &mut second_normal, work) {
        return refusal;
    }
    match lcs::write(&first_normal, &second_normal, result) {
        Ok(length) => answer(YES, length),
        Err(lcs::TooLarge) => refusal(Input::Second, 15),
    }
}

/// The most specific cards of a book that subsume the case.
pub fn most_specific(under: Under, case: &[u8], book: &[u8], work: &mut [u8]) -> u64 {
    if work.len() < WORK_BYTES {
        return refusal(Input::Buffer, 1);
    }
    match most_specific::find(under, case, book) {
        Ok(cards) => {
            work[..WORK_BYTES].fill(0);
            answer(YES, cards as usize)
        }
        Err(refusal) => refusal,
    }
}

/// Asks 25 to 30 of the definitions and of the pictures that are given, each with its input, and unfolds these.
fn unfold(under: Under, given: &mut [(&mut Table, u64)]) -> Result<(), u64> {
    let definitions = Definitions::read(under.definitions)?;
    if definitions.are_none() {
        return Ok(());
    }
    let asked: Vec<definitions::Given> = given.iter().map(|(table, input)| (&**table, *input)).collect();
    definitions.ask(&asked)?;
    for (table, _) in given {
        **table = definitions.unfold(table);
    }
    Ok(())
}

/// Reads two pictures and leaves their normal tables, in the work space too; or gives the word of the refusal.
/// Nothing is written before both have a normal table.
fn prepare(
    under: Under,
    first: &[u8],
    second: &[u8],
    first_normal: &mut Table,
    second_normal: &mut Table,
    work: &mut [u8],
) -> Result<(), u64> {
    let mut first_table = Table::EMPTY;
    let mut second_table = Table::EMPTY;
    first_table.read(first).map_err(|refused| refusal_at(Input::First, refused))?;
    second_table.read(second).map_err(|refused| refusal_at(Input::Second, refused))?;
    let inputs = [Input::First, Input::Second].map(|input| refusal(input, 0));
    unfold(under, &mut [(&mut first_table, inputs[0]), (&mut second_table, inputs[1])])?;
    normal::normalize(&first_table, first_normal).map_err(|_| refusal(Input::First, 14))?;
    normal::normalize(&second_table, second_normal).map_err(|_| refusal(Input::Second, 14))?;
    let (first_half, second_half) = work[..WORK_BYTES].split_at_mut(MAX_BYTES);
    for (half, normal) in [(first_half, first_normal), (second_half, second_normal)] {
        let length = normal.write(half);
        half[length..].fill(0);
    }
    Ok(())
}
