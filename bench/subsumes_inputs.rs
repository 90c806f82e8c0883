//! Pairs of pictures whose verdict is timed: each maker gives the first and the second tree.

use super::parts::{card, coded, hang, regathered_late, Pair, DEPTH, R, S};
use super::reference::table::{KIND_EXISTS, KIND_FORALL, MAX_ROWS};
use super::rng::Rng;
use super::trees::{chain, root, some, spread, Node};

/// A label that no coded one carries.
const ABSENT: u64 = 1 << 63;

/// A card and the same with fewer names and without its last rows.
pub fn card_yes(rows: usize, depth: usize, rng: &mut Rng) -> Pair {
    let first = card(rows, depth, rng);
    let mut second = first[..rows - rows / 4].to_vec();
    for node in &mut second {
        if rng.chance(1, 4) {
            (node.wanted, node.excluded) = (0, 0);
        }
    }
    (first, second)
}

/// The same, but a late node of the second asks for one more name.
pub fn card_no(rows: usize, depth: usize, rng: &mut Rng) -> Pair {
    let (first, mut second) = card_yes(rows, depth, rng);
    let late = second.len() - 1 - rng.below(second.len() / 3);
    second[late].wanted |= 1 << rng.below(64);
    (first, second)
}

/// A root with successors whose labels all differ; the second has them in the opposite order.
pub fn wide_yes(rows: usize) -> Pair {
    let mut first = vec![root()];
    first.extend((1..rows).map(|code| coded(some(0, R, 0), code)));
    let mut second = vec![root()];
    second.extend(first[1..].iter().rev());
    (first, second)
}

/// The same, but the second's last successor asks for one more name.
pub fn wide_no(rows: usize) -> Pair {
    let (first, mut second) = wide_yes(rows);
    second[rows - 1].wanted |= ABSENT;
    (first, second)
}

/// As wide, but all of the second's are taken by the first candidate.
pub fn wide_plain() -> Pair {
    let (first, mut second) = wide_yes(MAX_ROWS);
    for node in &mut second {
        (node.wanted, node.excluded) = (0, 0);
    }
    (first, second)
}

/// Chains as deep as may be that differ in their last nodes; the second has them in the opposite order.
pub fn deep_yes() -> Pair {
    let chains = (MAX_ROWS - 1) / DEPTH;
    let (mut first, mut second) = (vec![root()], vec![root()]);
    for code in 0..chains {
        hang(&mut first, KIND_EXISTS, R, code);
        hang(&mut second, KIND_EXISTS, R, chains - 1 - code);
    }
    (first, second)
}

pub fn deep_no() -> Pair {
    let (first, mut second) = deep_yes();
    second.last_mut().expect("a tree has a root").wanted |= ABSENT;
    (first, second)
}

/// Chains of value restrictions, each by a role of its own.
pub fn values_yes() -> Pair {
    let mut first = vec![root()];
    for role in 0..(MAX_ROWS - 1) / DEPTH {
        hang(&mut first, KIND_FORALL, role as u8, role);
    }
    (first.clone(), first)
}

pub fn values_no() -> Pair {
    let (first, mut second) = values_yes();
    second.last_mut().expect("a tree has a root").wanted |= ABSENT;
    (first, second)
}

/// Few rows that merge to the most there may be.
pub fn merged_yes() -> Pair {
    (spread(16, 14, R), spread(16, 14, R))
}

pub fn merged_no() -> Pair {
    let (first, mut second) = merged_yes();
    second[1].wanted = ABSENT;
    (first, second)
}

/// 15 successors with 16 each. All take all leaves of the second's but the last one, and only the last takes that
/// too; no leaf is met before the last candidate.
pub fn nearly_yes() -> Pair {
    let (mut first, mut second) = (vec![root()], vec![root()]);
    for group in 0..15 {
        let parent = first.len();
        first.push(some(0, R, 0));
        second.push(some(0, R, 0));
        first.extend((0..16).map(|leaf| nearly(some(parent, S, 0), group, leaf)));
        second.extend((0..16).map(|leaf| some(parent, S, if leaf < 15 { 1 } else { 2 })));
    }
    (first, second)
}

/// The last leaf carries what nearly all ask for; in the last group also what the last one asks for.
fn nearly(leaf: Node, group: usize, number: usize) -> Node {
    let wanted = match (number, group) {
        (15, 14) => 3,
        (15, _) => 1,
        _ => 4,
    };
    Node { wanted, ..leaf }
}

/// The same, where none will do for the last leaf of the second's last.
pub fn nearly_no() -> Pair {
    let (first, mut second) = nearly_yes();
    second.last_mut().expect("a tree has a root").wanted = ABSENT;
    (first, second)
}

/// 127 successors with one leaf each; only the last candidate's leaf will do.
pub fn last_yes() -> Pair {
    let (mut first, mut second) = (vec![root()], vec![root()]);
    for number in 0..127 {
        let parent = first.len();
        first.push(some(0, R, 1));
        first.push(some(parent, S, if number == 126 { 2 } else { 1 }));
        second.push(some(0, R, 1));
        second.push(some(parent, S, 2));
    }
    (first, second)
}

/// The same, where none will do for the last of the second's.
pub fn last_no() -> Pair {
    let (first, mut second) = last_yes();
    second.last_mut().expect("a tree has a root").wanted = 4;
    (first, second)
}

/// Tables nearly as slow to make as the slowest, and rows that agree, of which only the last candidate will do.
pub fn regathered_yes() -> Pair {
    (regathered_late(0, 1, 0), regathered_late(1, 1, 0))
}

/// The same, where none will do for the last of the second's.
pub fn regathered_no() -> Pair {
    (regathered_late(0, 1, 0), regathered_late(1, 1, 2))
}

/// 255 successors, each of which needs a chain of 12 individuals to fail the one that is asked for.
pub fn largest_refutation() -> Pair {
    let mut first = vec![root()];
    first.extend((1..MAX_ROWS).map(|_| some(0, R, 0)));
    let mut second = chain(DEPTH, KIND_FORALL, R, 1 << 5);
    second[1].kind = KIND_EXISTS;
    (first, second)
}
