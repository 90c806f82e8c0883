//! Files made by hand: pictures, one for each question that can refuse a picture at each row, and inputs that each call
//! answers.

use std::ops::RangeInclusive;

use super::book;
use super::calls::{Call, LCS, MOST_SPECIFIC, NORMALIZE, SUBSUMES, VALIDATE, VERIFY};
use super::evidence_files::{map, refutation};
use super::reference::most_specific::MAX_CARDS;
use super::reference::table::{
    HEAD_BYTES, KIND_EXISTS, KIND_FORALL, KIND_ROOT, MAX_DEPTH, MAX_ROWS, ROW_BYTES, TAG_END, VALUE_BYTES,
};
use super::reference::{self, field, value, MAX_EVIDENCE_BYTES, NOTHING, ROLES, WORK_BYTES};
use super::trees::{all, chain, encode, root, some, spread, Node, Tree};

/// The questions that can refuse a picture, and those that are asked while it is read.
pub const QUESTIONS: RangeInclusive<u8> = 2..=14;
pub const READING: RangeInclusive<u8> = 2..=13;

/// The rows that a refusal by this question can name: one that is not asked while a picture is read names row 0.
pub fn rows(question: u8) -> RangeInclusive<usize> {
    match question {
        2..=4 => 0..=MAX_ROWS,
        5 => MAX_ROWS..=MAX_ROWS,
        6 | 9..=11 | 13 => 0..=MAX_ROWS - 1,
        8 => 1..=MAX_ROWS,
        12 => DEEPEST + 1..=MAX_ROWS - 1,
        _ => 0..=0,
    }
}

/// Each of these questions with each row that a refusal by it can name.
pub fn places(questions: RangeInclusive<u8>) -> impl Iterator<Item = (u8, usize)> {
    questions.flat_map(|question| rows(question).map(move |row| (question, row)))
}

/// The last row of a chain as deep as may be.
const DEEPEST: usize = MAX_DEPTH as usize;

/// So many rows: a chain as deep as may be, and after it all below the root.
fn deep(count: usize) -> Tree {
    let below = |number: usize| if number <= DEEPEST { number - 1 } else { 0 };
    let mut tree = vec![root()];
    tree.extend((1..count).map(|number| some(below(number), 8, 0)));
    tree
}

/// A picture that this question, one of those that are asked while it is read, refuses at this row.
pub fn refused_at(question: u8, row: usize) -> Vec<u8> {
    let at = row * ROW_BYTES;
    let value = at + HEAD_BYTES;
    let mut file = encode(&deep(row + 1));
    match question {
        2 => file.truncate(at + row % HEAD_BYTES),
        3 => file[at] = 0x11,
        4 => file[at + 2] = 20,
        5 => (),
        6 => file.truncate(value + row % VALUE_BYTES),
        7 => file = field::head_bytes(TAG_END, 0).to_vec(),
        8 => file = [encode(&deep(row)), vec![0; 1 + row]].concat(),
        9 => file[value + 2] = if row == 0 { KIND_EXISTS } else { KIND_ROOT },
        10 => file[value + 3] = ROLES,
        11 => file[value..value + 2].copy_from_slice(&(row.max(1) as u16).to_be_bytes()),
        12 => file[value + 1] = MAX_DEPTH,
        13 => file[value + 4] = 2,
        _ => unreachable!("a question that is asked while a picture is read"),
    }
    file
}

/// A picture that this question refuses; each of those that are asked while it is read does so at another row.
pub fn refused(question: u8) -> Vec<u8> {
    if question == 14 {
        return encode(&spread(15, 15, 8));
    }
    let rows = rows(question);
    refused_at(question, usize::from(question + 1).clamp(*rows.start(), *rows.end()))
}

/// A call and the files that it is given.
pub struct Given {
    pub call: &'static Call,
    pub files: Vec<Vec<u8>>,
}

impl Given {
    pub fn files(&self) -> Vec<&[u8]> {
        self.files.iter().map(Vec::as_slice).collect()
    }
}

/// Two pictures of which the first says more.
fn pair() -> [Vec<u8>; 2] {
    let specific = [
        Node { excluded: 8, wanted: 1, ..root() },
        some(0, 8, 3),
        all(1, 9, 5),
        some(0, 31, 0),
        Node { impossible: true, ..all(0, 0, 0) },
    ];
    [encode(&specific), encode(&[root(), some(0, 8, 2), all(0, 0, 4)])]
}

/// The evidence that the reference writes.
fn evidence(first: &[u8], second: &[u8]) -> Vec<u8> {
    let mut result = vec![0; MAX_EVIDENCE_BYTES];
    let word = reference::subsumes(NOTHING, first, second, &mut [0; WORK_BYTES], &mut result);
    result.truncate(value(word));
    result
}

/// Small inputs of each call; each is answered.
pub fn small() -> Vec<Given> {
    let mut given = Vec::new();
    let [specific, general] = pair();
    for picture in [&specific, &general, &encode(&[root()])] {
        given.push(Given { call: &VALIDATE, files: vec![picture.clone()] });
        given.push(Given { call: &NORMALIZE, files: vec![picture.clone()] });
    }
    for (first, second) in [(&specific, &general), (&general, &specific), (&general, &general)] {
        let evidence = evidence(first, second);
        given.push(Given { call: &SUBSUMES, files: vec![first.clone(), second.clone()] });
        given.push(Given { call: &LCS, files: vec![first.clone(), second.clone()] });
        given.push(Given { call: &VERIFY, files: vec![first.clone(), second.clone(), evidence] });
    }
    for cards in [vec![], vec![general.clone()], vec![general.clone(), encode(&[root()]), specific.clone()]] {
        for case in [&specific, &general] {
            given.push(Given { call: &MOST_SPECIFIC, files: vec![case.clone(), book::encode(&cards)] });
        }
    }
    given
}

/// Cards of five rows, of three, of as many as there may be, and of one.
pub fn cards() -> Vec<Vec<u8>> {
    let [specific, general] = pair();
    vec![specific, general, encode(&deep(MAX_ROWS)), encode(&[root()])]
}

/// Inputs that are refused after both normal tables are there: by 15, and evidence by 16 to 23.
pub fn refused_late() -> Vec<Given> {
    let fan = encode(&[vec![root()], vec![some(0, 8, 0); 16]].concat());
    let first = encode(&[Node { wanted: 2, ..root() }, some(0, 8, 4)]);
    let second = encode(&[root(), some(0, 8, 0)]);
    let asking = encode(&[Node { wanted: 1, ..root() }, some(0, 8, 0)]);
    let evidence = [
        (&second, [map(&[0, 1]), vec![0]].concat()),
        (&second, map(&[0, 2])),
        (&second, map(&[1, 1])),
        (&asking, map(&[0, 1])),
        (&second, map(&[0, 0])),
        (&second, refutation(&[(0, 8, 0)])),
        (&second, refutation(&[(0, 0, 0), (0, 8, 4)])),
        (&second, refutation(&[(0, 0, 2), (0, 8, 4)])),
    ];
    let checked =
        evidence.map(|(second, file)| Given { call: &VERIFY, files: vec![first.clone(), second.clone(), file] });
    std::iter::once(Given { call: &LCS, files: vec![fan.clone(), fan] }).chain(checked).collect()
}

/// An existential restriction that each successor needs a chain of individuals to fail.
fn failed_late() -> Tree {
    let mut tree = chain(12, KIND_FORALL, 8, 1);
    tree[1].kind = KIND_EXISTS;
    tree
}

/// Inputs as large as they may be, in rows, images and cards; and a refutation of some hundred individuals.
pub fn large() -> Vec<Given> {
    let fan = encode(&[vec![root()], vec![some(0, 8, 1); 255]].concat());
    let one = encode(&chain(12, KIND_EXISTS, 8, 1));
    let full_map = evidence(&fan, &fan);
    let (brush, failed) = (encode(&[vec![root()], vec![some(0, 8, 0); 20]].concat()), encode(&failed_late()));
    let countermodel = evidence(&brush, &failed);
    let cards = vec![encode(&[root()]); MAX_CARDS];
    vec![
        Given { call: &VALIDATE, files: vec![fan.clone()] },
        Given { call: &NORMALIZE, files: vec![fan.clone()] },
        Given { call: &SUBSUMES, files: vec![one.clone(), fan.clone()] },
        Given { call: &LCS, files: vec![fan.clone(), one.clone()] },
        Given { call: &VERIFY, files: vec![fan.clone(), fan, full_map] },
        Given { call: &VERIFY, files: vec![brush, failed, countermodel] },
        Given { call: &MOST_SPECIFIC, files: vec![one, book::encode(&cards)] },
    ]
}
