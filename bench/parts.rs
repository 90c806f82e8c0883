//! What the timed pictures are made of.

use super::reference::table::{MAX_DEPTH, MAX_ROWS};
use super::rng::Rng;
use super::trees::{all, chain, root, some, Node, Tree};

pub const DEPTH: usize = MAX_DEPTH as usize;
pub const R: u8 = 8;
pub const S: u8 = 9;

/// The first and the second tree.
pub type Pair = (Tree, Tree);

/// Labels of which none carries another: eight names, each wanted or excluded.
pub fn coded(node: Node, code: usize) -> Node {
    let wanted = code as u64 & 0xFF;
    Node { wanted, excluded: wanted ^ 0xFF, ..node }
}

/// A card: up to so many edges deep, four roles, one node in four a value restriction.
pub fn card(rows: usize, depth: usize, rng: &mut Rng) -> Tree {
    let mut tree = vec![root()];
    let mut depths = vec![0];
    for number in 1..rows {
        let mut parent = rng.below(number);
        while depths[parent] == depth {
            parent = rng.below(number);
        }
        depths.push(depths[parent] + 1);
        let (role, name) = (rng.below(4) as u8, 1 << rng.below(32));
        let mut node = if rng.chance(1, 4) { all(parent, role, name) } else { some(parent, role, name) };
        if rng.chance(1, 4) {
            node.excluded = 1 << (32 + rng.below(32));
        }
        tree.push(node);
    }
    tree
}

/// A name that all of the many have, so that they are kept.
const KEPT: u64 = 1 << 63;

/// A value restriction below another, and so on, each with existential ones beside it; then as many more value
/// restrictions below the last as there is room for in so many rows. All are by one role, so that these many are
/// gathered again for each merged row above them: `copies` says how many there are, times those of the level above.
pub fn regathered(rows: usize, copies: &[usize]) -> Tree {
    let mut tree = vec![root()];
    let mut above = 0;
    for count in copies {
        let next = tree.len();
        tree.push(all(above, R, 0));
        tree.extend((1..*count).map(|_| some(above, R, 0)));
        above = next;
    }
    fill(tree, rows, above)
}

fn fill(mut tree: Tree, rows: usize, above: usize) -> Tree {
    tree.resize(rows, all(above, R, KEPT));
    tree
}

/// As `regathered(MAX_ROWS, &[8, 15])`, but with a successor below each existential restriction, which asks for these
/// names. Below the last ones it asks for all names that others ask for, and in the first level for some besides. So
/// rows agree, and only below the last candidate are the names that are asked for.
pub fn regathered_late(names: u64, every: u64, besides: u64) -> Tree {
    let mut tree = vec![root(), all(0, R, 0), all(1, R, 0)];
    for number in 1..8 {
        tree.push(some(0, R, 0));
        tree.push(some(tree.len() - 1, S, if number == 7 { every | besides } else { names }));
    }
    for number in 1..15 {
        tree.push(some(1, R, 0));
        tree.push(all(tree.len() - 1, R, if number == 14 { every } else { names }));
    }
    fill(tree, MAX_ROWS, 2)
}

/// A chain below the root, its last node coded.
pub fn hang(tree: &mut Tree, kind: u8, role: u8, code: usize) {
    let from = tree.len();
    for (at, node) in chain(DEPTH, kind, role, 0)[1..].iter().enumerate() {
        tree.push(Node { parent: if at == 0 { 0 } else { from + at - 1 }, ..*node });
    }
    let last = tree.len() - 1;
    tree[last] = coded(tree[last], code);
}
