//! Pictures whose test and whose normal table are timed. Labels are drawn so that they never contradict each other, and
//! the whole table is written.

use super::parts::{DEPTH, R, S};
use super::reference::ROLES;
use super::rng::Rng;
use super::trees::{all, root, some, spread, Node, Tree};

fn labelled(mut tree: Tree, rng: &mut Rng) -> Tree {
    for node in &mut tree {
        node.wanted = 1 << rng.below(32);
        node.excluded = if rng.chance(1, 4) { 1 << (32 + rng.below(32)) } else { 0 };
    }
    tree
}

/// So many rows, the root first.
fn tree(rows: usize, successor: impl Fn(usize) -> Node, rng: &mut Rng) -> Tree {
    let mut tree = vec![root()];
    tree.extend((1..rows).map(successor));
    labelled(tree, rng)
}

/// Chains as deep as they may be and fans, all kinds, roles, marks and names.
pub fn mixed(rows: usize, rng: &mut Rng) -> Tree {
    let mut tree = vec![root()];
    let mut depths = vec![0];
    for number in 1..rows {
        let drawn = if rng.chance(3, 4) { number - 1 } else { rng.below(number) };
        let parent = if depths[drawn] == DEPTH { 0 } else { drawn };
        depths.push(depths[parent] + 1);
        let role = rng.below(usize::from(ROLES)) as u8;
        let node = if rng.chance(1, 2) { some(parent, role, rng.next()) } else { all(parent, role, rng.next()) };
        tree.push(Node { excluded: rng.next(), impossible: rng.chance(1, 2), ..node });
    }
    tree
}

/// One value restriction with so many existential ones below it, and 30 less so many beside it: with 16 there are 256
/// merged rows, with 15 one more.
pub fn merged(inner: usize, rng: &mut Rng) -> Tree {
    labelled(spread(inner, 30 - inner, R), rng)
}

/// All rows below the root by one role.
pub fn fan(rows: usize, rng: &mut Rng) -> Tree {
    tree(rows, |_| some(0, R, 0), rng)
}

/// All rows but the root become one.
pub fn joined(rows: usize, rng: &mut Rng) -> Tree {
    tree(rows, |_| all(0, R, 0), rng)
}

/// Half the rows become one, and the others, one below each of them, its successors.
pub fn gathered(rows: usize, rng: &mut Rng) -> Tree {
    tree(rows, |number| if number % 2 == 1 { all(0, R, 0) } else { some(number - 1, S, 0) }, rng)
}

/// So many chains as deep as they may be, each by a role of its own, both kinds in turn.
pub fn chains(count: usize, rng: &mut Rng) -> Tree {
    let successor = |number: usize| {
        let (chain, level) = ((number - 1) / DEPTH, (number - 1) % DEPTH);
        let parent = if level == 0 { 0 } else { number - 1 };
        alternate(level % 2 == 0, parent, chain as u8)
    };
    tree(1 + count * DEPTH, successor, rng)
}

/// Eight successors to a row, by different roles in falling order, both kinds in turn.
pub fn spread_roles(rows: usize, rng: &mut Rng) -> Tree {
    let role = |number: usize| 31 - (number - 1) % 8 * 4 - number / 8 % 4;
    tree(rows, |number| alternate(number % 2 == 0, (number - 1) / 8, role(number) as u8), rng)
}

fn alternate(exists: bool, parent: usize, role: u8) -> Node {
    if exists {
        some(parent, role, 0)
    } else {
        all(parent, role, 0)
    }
}

/// A chain of value restrictions as deep as it may be, with so many existential ones by the same role beside each.
pub fn growing(width: usize, rng: &mut Rng) -> Tree {
    let successor = |number: usize| {
        let (level, at) = ((number - 1) / (1 + width), (number - 1) % (1 + width));
        let parent = if level == 0 { 0 } else { 1 + (level - 1) * (1 + width) };
        alternate(at > 0, parent, R)
    };
    tree(1 + DEPTH * (1 + width), successor, rng)
}
