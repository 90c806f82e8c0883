//! Pairs of pictures whose common picture is timed: each maker gives the first and the second tree.

use super::parts::{card, coded, hang, regathered, Pair, DEPTH, R, S};
use super::reference::table::{KIND_FORALL, MAX_ROWS};
use super::rng::Rng;
use super::trees::{all, root, some, spread, Node, Tree};

/// A card and the same with a quarter of the names changed and another end.
pub fn card_near(rows: usize, depth: usize, rng: &mut Rng) -> Pair {
    let first = card(rows, depth, rng);
    let mut second = first[..rows - rows / 4].to_vec();
    for node in &mut second {
        if rng.chance(1, 4) {
            node.wanted = 1 << rng.below(32);
        }
    }
    for _ in 0..rows / 4 {
        second.push(some(0, rng.below(4) as u8, 1 << rng.below(32)));
    }
    (first, second)
}

/// Two cards that have nothing to do with each other.
pub fn card_apart(rows: usize, depth: usize, rng: &mut Rng) -> Pair {
    (card(rows, depth, rng), card(rows, depth, rng))
}

/// So many existential restrictions below the root, all labels different.
fn fan(count: usize) -> Tree {
    let mut tree = vec![root()];
    tree.extend((0..count).map(|code| coded(some(0, R, 0), code)));
    tree
}

pub fn fans(first: usize, second: usize) -> Pair {
    (fan(first), fan(second))
}

/// A full binary tree, seven edges deep, with these two successors at each node: paired with itself, each node meets
/// only itself.
fn binary(left: Successor, right: Successor) -> Tree {
    let mut tree = vec![root()];
    for parent in 0..127 {
        tree.push(left(parent));
        tree.push(right(parent));
    }
    for (code, node) in tree.iter_mut().enumerate() {
        *node = coded(*node, code);
    }
    tree
}

type Successor = fn(usize) -> Node;

fn twice(tree: Tree) -> Pair {
    (tree.clone(), tree)
}

pub fn binary_exists() -> Pair {
    twice(binary(|parent| some(parent, R, 0), |parent| some(parent, S, 0)))
}

pub fn binary_values() -> Pair {
    twice(binary(|parent| all(parent, R, 0), |parent| all(parent, S, 0)))
}

pub fn binary_both() -> Pair {
    twice(binary(|parent| all(parent, R, 0), |parent| some(parent, S, 0)))
}

/// The same by one role, four edges deep: each node of a depth meets each other, 341 in all.
pub fn binary_large() -> Pair {
    let mut tree = vec![root()];
    tree.extend((0..30).map(|number| some(number / 2, R, 0)));
    twice(tree)
}

/// Chains of value restrictions as deep as may be, each by a role of its own, that say something at their ends.
pub fn chains_kept() -> Pair {
    let mut tree = vec![root()];
    for role in 0..(MAX_ROWS - 1) / DEPTH {
        hang(&mut tree, KIND_FORALL, role as u8, role);
    }
    twice(tree)
}

/// The same, where the ends have nothing in common: each chain is known to be dropped when its end is met.
pub fn chains_dropped() -> Pair {
    let (first, mut second) = chains_kept();
    for node in &mut second {
        (node.wanted, node.excluded) = (node.excluded, node.wanted);
    }
    (first, second)
}

/// Existential restrictions with chains of value restrictions below each, as long as the rows allow.
fn brush(count: usize, edges: usize, name: u64) -> Tree {
    let mut tree = vec![root()];
    for _ in 0..count {
        tree.push(some(0, R, 0));
        for _ in 0..edges {
            tree.push(all(tree.len() - 1, S, 0));
        }
        tree.last_mut().expect("a tree has a root").wanted = name;
    }
    tree
}

/// 255 pairs, and below each eleven that are dropped: 3,061 rows before that and 256 after.
pub fn pairs_dropped() -> Pair {
    (brush(15, 11, 1), brush(17, 11, 2))
}

/// Few rows that merge to the most there may be, with a picture that has every restriction once.
pub fn merged() -> Pair {
    (spread(16, 14, R), vec![root(), some(0, R, 0), some(1, S, 0)])
}

/// The slowest normal table twice.
pub fn regathered_twice() -> Pair {
    twice(regathered(MAX_ROWS, &[3, 4, 10]))
}

/// All roles below the root, by both kinds.
pub fn roles() -> Pair {
    let mut tree = vec![root()];
    for role in (0..32).rev() {
        tree.push(coded(some(0, role, 0), usize::from(role)));
        tree.push(all(0, role, 1 << 32));
    }
    twice(tree)
}

/// All roles at several nodes.
pub fn roles_large(rows: usize) -> Pair {
    let mut tree = vec![root()];
    tree.extend((0..rows - 1).map(|number| coded(some(number / 32, (number % 32) as u8, 0), number)));
    twice(tree)
}

/// Nothing is an instance of the first: the second's normal table is copied.
pub fn root_impossible() -> Pair {
    let none = vec![Node { impossible: true, ..root() }];
    (none, fan(MAX_ROWS - 1))
}

/// Impossible value restrictions on either side, each with a large subtree on the other.
pub fn sides_impossible() -> Pair {
    let side = |role: u8, other: u8| {
        let mut tree = vec![root(), Node { impossible: true, ..all(0, role, 0) }, all(0, other, 1)];
        tree.extend((0..126).map(|code| coded(some(2, R, 0), code)));
        tree
    };
    (side(0, 1), side(1, 0))
}

/// Subtrees of two nodes that are copied below 85 pairs.
pub fn pairs_impossible() -> Pair {
    let (mut first, mut second) = (vec![root()], vec![root()]);
    for _ in 0..5 {
        let parent = first.len();
        first.push(some(0, R, 0));
        first.push(Node { impossible: true, ..all(parent, S, 0) });
    }
    for code in 0..17 {
        let parent = second.len();
        second.push(some(0, R, 0));
        second.push(all(parent, S, 0));
        second.push(coded(some(parent + 1, R, 0), code));
    }
    (first, second)
}
