//! What is timed: the lines of the table, and those of the growth.

use super::calls::{under, Call, Input, LCS, MOST_SPECIFIC, NORMALIZE, SUBSUMES, VALIDATE, VERIFY};
use super::parts::{card, regathered, Pair};
use super::reference::most_specific::MAX_CARDS;
use super::reference::table::MAX_ROWS;
use super::reference::{self, value, MAX_EVIDENCE_BYTES, MAX_INDIVIDUALS, NO, NOTHING, WORK_BYTES, YES};
use super::rng::Rng;
use super::trees::{encode, root, Tree};
use super::{book, lcs_inputs, most_specific_inputs, picture_inputs, subsumes_inputs, verify_inputs};

use Sort::{Defined, Full, Other, Typical, Worst};

/// The outcome of a refusal.
const REFUSED: u64 = 0;

#[derive(PartialEq)]
pub enum Sort {
    Typical,
    /// Full books of which every card subsumes the case.
    Full,
    /// The slowest that is known.
    Worst,
    /// Under definitions.
    Defined,
    Other,
}

impl Sort {
    pub fn name(&self) -> &'static str {
        match self {
            Typical => "typical",
            Full => "full",
            Worst => "worst",
            Defined => "defined",
            Other => "other",
        }
    }

    /// How many times as long as another side the library may take.
    pub fn goal(&self) -> f64 {
        match self {
            Full => FULL_GOAL,
            _ => GOAL,
        }
    }
}

pub const GOAL: f64 = 1.3;
pub const FULL_GOAL: f64 = 1.5;

/// Sort, name, outcome and how an input is made. Typical inputs are drawn until they have the outcome.
pub type Line = (Sort, &'static str, u64, fn(&mut Rng) -> Input);

/// Call, name, what the size counts, sizes, and how an input of a size is made.
pub type Growth = (Call, &'static str, &'static str, [usize; 5], fn(usize, &mut Rng) -> Input);

fn one(tree: Tree) -> Input {
    Input { first: encode(&tree), ..Input::default() }
}

fn two((first, second): Pair) -> Input {
    Input { first: encode(&first), second: encode(&second), ..Input::default() }
}

/// With the evidence that belongs to the pair.
fn evident(pair: Pair) -> Input {
    let input = two(pair);
    let mut evidence = vec![0; MAX_EVIDENCE_BYTES];
    let word = reference::subsumes(NOTHING, &input.first, &input.second, &mut vec![0; WORK_BYTES], &mut evidence);
    evidence.truncate(value(word));
    Input { evidence, ..input }
}

fn case((case, cards): most_specific_inputs::Book) -> Input {
    let cards: Vec<Vec<u8>> = cards.iter().map(|card| encode(card)).collect();
    Input { first: encode(&case), second: book::encode(&cards), ..Input::default() }
}

/// Names that cards want: each is defined as a card of a few rows, the last one by the first besides.
const DEFINED: [u8; 4] = [28, 29, 30, 31];

/// The input under definitions of some of its names.
fn defined(input: Input, rng: &mut Rng) -> Input {
    let picture = |&name: &u8| {
        let mut tree = card(4, 2, rng);
        tree.iter_mut().for_each(|node| node.wanted &= (1 << DEFINED[0]) - 1);
        tree[0].wanted |= if name == DEFINED[3] { 1 << DEFINED[0] } else { 1 };
        (name, encode(&tree))
    };
    let pictures: Vec<(u8, Vec<u8>)> = DEFINED.iter().map(picture).collect();
    Input { definitions: book::definitions(&pictures), ..input }
}

/// The calls under definitions, counted beside the others but for their means.
pub static DEFINED_LINES: [(Call, &[Line]); 3] = [
    (under(NORMALIZE), &[(Defined, "card, 4 definitions", YES, |rng| defined(one(card(20, 3, rng)), rng))]),
    (
        under(SUBSUMES),
        &[
            (Defined, "4 definitions, yes", YES, |rng| defined(two(subsumes_inputs::card_yes(20, 3, rng)), rng)),
            (Defined, "4 definitions, no", NO, |rng| defined(two(subsumes_inputs::card_no(20, 3, rng)), rng)),
        ],
    ),
    (
        under(MOST_SPECIFIC),
        &[(Defined, "4 definitions", YES, |rng| defined(case(most_specific_inputs::typical(rng)), rng))],
    ),
];

pub static LINES: [(Call, &[Line]); 6] = [
    (
        VALIDATE,
        &[
            (Typical, "card, depth 2", YES, |rng| one(card(10, 2, rng))),
            (Typical, "card, depth 3", YES, |rng| one(card(20, 3, rng))),
            (Typical, "card, depth 4", YES, |rng| one(card(30, 4, rng))),
            (Worst, "chains and fans", YES, |rng| one(picture_inputs::mixed(MAX_ROWS, rng))),
            (Other, "empty root", YES, |_| one(vec![root()])),
        ],
    ),
    (
        NORMALIZE,
        &[
            (Typical, "card, depth 2", YES, |rng| one(card(10, 2, rng))),
            (Typical, "card, depth 3", YES, |rng| one(card(20, 3, rng))),
            (Typical, "card, depth 4", YES, |rng| one(card(30, 4, rng))),
            (Worst, "120 times 238 alls", YES, |_| one(regathered(MAX_ROWS, &[3, 4, 10]))),
            (Other, "127 times 128 alls", YES, |_| one(regathered(MAX_ROWS, &[127]))),
            (Other, "both kinds, 32 roles", YES, |rng| one(picture_inputs::spread_roles(MAX_ROWS, rng))),
            (Other, "fan", YES, |rng| one(picture_inputs::fan(MAX_ROWS, rng))),
            (Other, "chain", YES, |rng| one(picture_inputs::chains(1, rng))),
            (Other, "21 chains", YES, |rng| one(picture_inputs::chains(21, rng))),
            (Other, "2 rows when merged", YES, |rng| one(picture_inputs::joined(MAX_ROWS, rng))),
            (Other, "129 rows when merged", YES, |rng| one(picture_inputs::gathered(MAX_ROWS - 1, rng))),
            (Other, "256 rows when merged", YES, |rng| one(picture_inputs::merged(16, rng))),
            (Other, "257 rows, refused", REFUSED, |rng| one(picture_inputs::merged(15, rng))),
            (Other, "over 3^12 rows, refused", REFUSED, |rng| one(picture_inputs::growing(2, rng))),
            (Other, "over 21^12 rows, refused", REFUSED, |rng| one(picture_inputs::growing(20, rng))),
        ],
    ),
    (
        SUBSUMES,
        &[
            (Typical, "cards, depth 2, yes", YES, |rng| two(subsumes_inputs::card_yes(10, 2, rng))),
            (Typical, "cards, depth 2, no", NO, |rng| two(subsumes_inputs::card_no(10, 2, rng))),
            (Typical, "cards, depth 3, yes", YES, |rng| two(subsumes_inputs::card_yes(20, 3, rng))),
            (Typical, "cards, depth 3, no", NO, |rng| two(subsumes_inputs::card_no(20, 3, rng))),
            (Typical, "cards, depth 4, yes", YES, |rng| two(subsumes_inputs::card_yes(30, 4, rng))),
            (Typical, "cards, depth 4, no", NO, |rng| two(subsumes_inputs::card_no(30, 4, rng))),
            (Worst, "120 times 211 alls, no", NO, |_| two(subsumes_inputs::regathered_no())),
            (Other, "120 times 211 alls, yes", YES, |_| two(subsumes_inputs::regathered_yes())),
            (Other, "127 x 2, last candidate, no", NO, |_| two(subsumes_inputs::last_no())),
            (Other, "127 x 2, last candidate, yes", YES, |_| two(subsumes_inputs::last_yes())),
            (Other, "15 x 17, nearly map, yes", YES, |_| two(subsumes_inputs::nearly_yes())),
            (Other, "15 x 17, nearly map, no", NO, |_| two(subsumes_inputs::nearly_no())),
            (Other, "fans, each with each, yes", YES, |_| two(subsumes_inputs::wide_yes(MAX_ROWS))),
            (Other, "fans, each with each, no", NO, |_| two(subsumes_inputs::wide_no(MAX_ROWS))),
            (Other, "fans, first candidate", YES, |_| two(subsumes_inputs::wide_plain())),
            (Other, "chains of some, yes", YES, |_| two(subsumes_inputs::deep_yes())),
            (Other, "chains of some, no", NO, |_| two(subsumes_inputs::deep_no())),
            (Other, "chains of all, yes", YES, |_| two(subsumes_inputs::values_yes())),
            (Other, "chains of all, no", NO, |_| two(subsumes_inputs::values_no())),
            (Other, "256 rows when merged, yes", YES, |_| two(subsumes_inputs::merged_yes())),
            (Other, "256 rows when merged, no", NO, |_| two(subsumes_inputs::merged_no())),
            (Other, "largest refutation", NO, |_| two(subsumes_inputs::largest_refutation())),
        ],
    ),
    (
        VERIFY,
        &[
            (Typical, "map, cards of depth 2", YES, |rng| evident(subsumes_inputs::card_yes(10, 2, rng))),
            (Typical, "refutation, cards of depth 2", NO, |rng| evident(subsumes_inputs::card_no(10, 2, rng))),
            (Typical, "map, cards of depth 3", YES, |rng| evident(subsumes_inputs::card_yes(20, 3, rng))),
            (Typical, "refutation, cards of depth 3", NO, |rng| evident(subsumes_inputs::card_no(20, 3, rng))),
            (Typical, "map, cards of depth 4", YES, |rng| evident(subsumes_inputs::card_yes(30, 4, rng))),
            (Typical, "refutation, cards of depth 4", NO, |rng| evident(subsumes_inputs::card_no(30, 4, rng))),
            (Worst, "siblings that reach one", NO, |_| verify_inputs::reaching()),
            (Other, "siblings, 2 rows each", NO, |_| verify_inputs::inner_siblings(0)),
            (Other, "siblings", NO, |_| verify_inputs::siblings(MAX_ROWS, MAX_INDIVIDUALS)),
            (Other, "siblings at depth 12", NO, |_| verify_inputs::deep_siblings()),
            (Other, "siblings, 5 rows each", NO, |_| verify_inputs::inner_siblings(3)),
            (Other, "siblings, 32 rows each", NO, |_| verify_inputs::inner_siblings(30)),
            (Other, "chain", NO, |_| verify_inputs::chain()),
            (Other, "by 32 roles", NO, |_| verify_inputs::by_roles()),
            (Other, "map of a fan", YES, |_| evident(subsumes_inputs::wide_yes(MAX_ROWS))),
        ],
    ),
    (
        LCS,
        &[
            (Typical, "near cards, depth 2", YES, |rng| two(lcs_inputs::card_near(10, 2, rng))),
            (Typical, "cards apart, depth 2", YES, |rng| two(lcs_inputs::card_apart(10, 2, rng))),
            (Typical, "near cards, depth 3", YES, |rng| two(lcs_inputs::card_near(20, 3, rng))),
            (Typical, "cards apart, depth 3", YES, |rng| two(lcs_inputs::card_apart(20, 3, rng))),
            (Worst, "120 times 238 alls, refused", REFUSED, |_| two(lcs_inputs::regathered_twice())),
            (Other, "15 x 17, chains dropped", YES, |_| two(lcs_inputs::pairs_dropped())),
            (Other, "fans, 15 x 17", YES, |_| two(lcs_inputs::fans(15, 17))),
            (Other, "fans, 16 x 16, refused", REFUSED, |_| two(lcs_inputs::fans(16, 16))),
            (Other, "fans, 255 x 1", YES, |_| two(lcs_inputs::fans(255, 1))),
            (Other, "fans, 255 x 255, refused", REFUSED, |_| two(lcs_inputs::fans(255, 255))),
            (Other, "binary, some", YES, |_| two(lcs_inputs::binary_exists())),
            (Other, "binary, all", YES, |_| two(lcs_inputs::binary_values())),
            (Other, "binary, some and all", YES, |_| two(lcs_inputs::binary_both())),
            (Other, "binary, one role, refused", REFUSED, |_| two(lcs_inputs::binary_large())),
            (Other, "chains of all", YES, |_| two(lcs_inputs::chains_kept())),
            (Other, "chains of all, dropped", YES, |_| two(lcs_inputs::chains_dropped())),
            (Other, "256 rows when merged", YES, |_| two(lcs_inputs::merged())),
            (Other, "all roles, both kinds", YES, |_| two(lcs_inputs::roles())),
            (Other, "all roles, 8 nodes", YES, |_| two(lcs_inputs::roles_large(MAX_ROWS))),
            (Other, "impossible root", YES, |_| two(lcs_inputs::root_impossible())),
            (Other, "impossible sides", YES, |_| two(lcs_inputs::sides_impossible())),
            (Other, "5 x 17, impossible sides", YES, |_| two(lcs_inputs::pairs_impossible())),
        ],
    ),
    (
        MOST_SPECIFIC,
        &[
            (Typical, "5 subsume the case", YES, |rng| case(most_specific_inputs::typical(rng))),
            (Typical, "none subsumes the case", YES, |rng| case(most_specific_inputs::apart(rng))),
            (Full, "all subsume the case", YES, |rng| case(most_specific_inputs::covering(rng))),
            (Full, "none subsumes another", YES, |rng| case(most_specific_inputs::antichain(16, MAX_CARDS, rng))),
            (Full, "chain, specific first", YES, |rng| case(most_specific_inputs::chain(16, rng))),
            (Full, "chain, specific last", YES, |rng| case(most_specific_inputs::chain_reversed(16, rng))),
            (Full, "chain, any order", YES, |rng| case(most_specific_inputs::chain_shuffled(16, rng))),
            (Full, "all the same", YES, |rng| case(most_specific_inputs::copies(16, rng))),
            (Full, "all equivalent", YES, |rng| case(most_specific_inputs::equivalent(16, rng))),
            (Full, "16 equivalent pairs", YES, |rng| case(most_specific_inputs::equivalent_pairs(16, rng))),
            (Full, "24 rows, all compared", YES, |rng| case(most_specific_inputs::antichain(24, MAX_CARDS, rng))),
            (Full, "24 rows, chain", YES, |rng| case(most_specific_inputs::chain_reversed(24, rng))),
            (Full, "24 rows, equivalent", YES, |rng| case(most_specific_inputs::equivalent(24, rng))),
            (Full, "40 rows, all compared", YES, |rng| case(most_specific_inputs::antichain(40, MAX_CARDS, rng))),
            (Full, "40 rows, chain", YES, |rng| case(most_specific_inputs::chain_reversed(40, rng))),
            (Full, "40 rows, equivalent", YES, |rng| case(most_specific_inputs::equivalent(40, rng))),
            (Worst, "120 times 211 alls", YES, |rng| case(most_specific_inputs::worst(rng))),
            (Other, "127 x 2, all compared", YES, |rng| case(most_specific_inputs::some_some(rng))),
            (Other, "256 rows, all compared", YES, |rng| case(most_specific_inputs::fans(rng))),
            (Other, "256 rows, chain", YES, |rng| case(most_specific_inputs::fans_chain(rng))),
            (Other, "256 rows, equivalent", YES, |rng| case(most_specific_inputs::fans_equivalent(rng))),
            (Other, "256 rows when merged", YES, |rng| case(most_specific_inputs::merged(rng))),
            (Other, "no cards", YES, |rng| case(most_specific_inputs::empty(rng))),
        ],
    ),
];

const ROWS: [usize; 5] = [16, 32, 64, 128, MAX_ROWS];
const INDIVIDUALS: [usize; 5] = [208, 416, 832, 1664, MAX_INDIVIDUALS];

pub static GROWTH: [Growth; 10] = [
    (VALIDATE, "chains and fans", "rows", ROWS, |rows, rng| one(picture_inputs::mixed(rows, rng))),
    (NORMALIZE, "fan", "rows", ROWS, |rows, rng| one(picture_inputs::fan(rows, rng))),
    (NORMALIZE, "alls gathered again", "rows", ROWS, |rows, _| one(regathered(rows, &[rows / 2 - 1]))),
    (NORMALIZE, "both kinds, 32 roles", "rows", ROWS, |rows, rng| one(picture_inputs::spread_roles(rows, rng))),
    (SUBSUMES, "fans, each with each", "rows", ROWS, |rows, _| two(subsumes_inputs::wide_yes(rows))),
    (VERIFY, "siblings, 3328 individuals", "rows", ROWS, |rows, _| verify_inputs::siblings(rows, MAX_INDIVIDUALS)),
    (VERIFY, "siblings, 256 rows", "individuals", INDIVIDUALS, |count, _| verify_inputs::siblings(MAX_ROWS, count)),
    (LCS, "fan and fan of 15", "pairs", [15, 30, 60, 120, 255], |pairs, _| two(lcs_inputs::fans(15, pairs / 15))),
    (LCS, "all roles", "pairs", ROWS, |rows, _| two(lcs_inputs::roles_large(rows))),
    (MOST_SPECIFIC, "none subsumes another", "cards", [2, 4, 8, 16, MAX_CARDS], |cards, rng| {
        case(most_specific_inputs::antichain(16, cards, rng))
    }),
];
