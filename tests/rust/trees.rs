//! Description trees as lists of nodes, parents before their successors, and their files.

use super::reference::field;
use super::reference::table::{
    HEAD_BYTES, KIND_EXISTS, KIND_FORALL, KIND_ROOT, ROW_BYTES, TAG_END, TAG_ROW, VALUE_BYTES,
};

#[derive(Clone, Copy, PartialEq)]
pub struct Node {
    pub parent: usize,
    pub kind: u8,
    pub role: u8,
    pub impossible: bool,
    pub wanted: u64,
    pub excluded: u64,
}

pub type Tree = Vec<Node>;

pub fn root() -> Node {
    node(0, KIND_ROOT, 0, 0)
}

pub fn some(parent: usize, role: u8, wanted: u64) -> Node {
    node(parent, KIND_EXISTS, role, wanted)
}

pub fn all(parent: usize, role: u8, wanted: u64) -> Node {
    node(parent, KIND_FORALL, role, wanted)
}

fn node(parent: usize, kind: u8, role: u8, wanted: u64) -> Node {
    Node { parent, kind, role, impossible: false, wanted, excluded: 0 }
}

pub fn encode(tree: &[Node]) -> Vec<u8> {
    let mut file = Vec::with_capacity(tree.len() * ROW_BYTES + HEAD_BYTES);
    for node in tree {
        file.extend(field::head_bytes(TAG_ROW, VALUE_BYTES));
        file.extend((node.parent as u16).to_be_bytes());
        file.extend([node.kind, node.role, u8::from(node.impossible)]);
        file.extend(node.wanted.to_be_bytes());
        file.extend(node.excluded.to_be_bytes());
    }
    file.extend(field::head_bytes(TAG_END, 0));
    file
}

/// One value restriction with `inner` existential ones below it, and `outer` existential ones beside it: the merged
/// table has 1 + (1 + inner) * (1 + outer) rows.
pub fn spread(inner: usize, outer: usize, role: u8) -> Tree {
    let mut tree = vec![root(), all(0, role, 0)];
    tree.extend((0..inner).map(|_| some(1, role ^ 1, 0)));
    tree.extend((0..outer).map(|_| some(0, role, 0)));
    tree
}

/// A chain of nodes of one kind, so many edges long; only the last has names.
pub fn chain(edges: usize, kind: u8, role: u8, last: u64) -> Tree {
    let mut tree = vec![root()];
    tree.extend((0..edges).map(|parent| node(parent, kind, role, 0)));
    tree[edges].wanted = last;
    tree
}
