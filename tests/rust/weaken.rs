//! Trees that subsume a given one, or have the same instances, made at random from it.

use super::rng::Rng;
use super::trees::{all, Node, Tree};

/// A tree that subsumes this one.
pub fn weaken(tree: &[Node], rng: &mut Rng) -> Tree {
    let (gone, fewer) = (rng.pick(&[0, 1, 3]), rng.pick(&[0, 2, 6]));
    let mut weaker = filter(tree, |_| !rng.chance(gone, 16));
    for node in &mut weaker {
        node.wanted &= if rng.chance(fewer, 16) { rng.next() } else { !0 };
        node.excluded &= if rng.chance(fewer, 16) { rng.next() } else { !0 };
        node.impossible &= !rng.chance(fewer, 32);
    }
    say_twice(&mut weaker, rng);
    if rng.chance(1, 2) {
        reorder(&weaker, rng)
    } else {
        weaker
    }
}

/// A tree with the same instances; mostly not the same tree.
pub fn reword(tree: &[Node], rng: &mut Rng) -> Tree {
    let mut same = tree.to_vec();
    say_twice(&mut same, rng);
    // A value restriction without names says nothing.
    if same.len() < 200 && rng.chance(1, 2) {
        same.push(all(rng.below(same.len().min(3)), rng.below(32) as u8, 0));
    }
    reorder(&same, rng)
}

/// A restriction said twice says no more.
fn say_twice(tree: &mut Tree, rng: &mut Rng) {
    let twice = rng.below(tree.len());
    if twice > 0 && tree.len() < 200 && rng.chance(1, 2) {
        tree.push(tree[twice]);
    }
}

/// Keeps some nodes, and none below one that goes.
pub fn filter(tree: &[Node], mut keep: impl FnMut(usize) -> bool) -> Tree {
    let mut numbers = vec![None; tree.len()];
    let mut kept = Tree::new();
    for (number, node) in tree.iter().enumerate() {
        if number == 0 || numbers[node.parent].is_some() && keep(number) {
            numbers[number] = Some(kept.len());
            kept.push(Node { parent: numbers[node.parent].unwrap_or(0), ..*node });
        }
    }
    kept
}

/// The same tree with its nodes in another order.
fn reorder(tree: &[Node], rng: &mut Rng) -> Tree {
    let mut keys = vec![0; tree.len()];
    for number in 1..tree.len() {
        keys[number] = keys[tree[number].parent] + 1 + rng.below(100);
    }
    let mut order: Vec<usize> = (0..tree.len()).collect();
    order.sort_by_key(|&number| keys[number]);
    let mut numbers = vec![0; tree.len()];
    for (at, &number) in order.iter().enumerate() {
        numbers[number] = at;
    }
    order.iter().map(|&number| Node { parent: numbers[tree[number].parent], ..tree[number] }).collect()
}
