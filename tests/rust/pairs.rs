//! Pairs of pictures at random, of several shapes.

use super::draw::{draw, draw_large, Draw};
use super::reference::table::{KIND_EXISTS, KIND_FORALL};
use super::rng::Rng;
use super::trees::{all, chain, encode, root, some, spread, Tree};
use super::weaken::weaken;

#[derive(Clone, Copy, Debug)]
pub enum Shape {
    Weaker,
    Near,
    Apart,
    Identical,
    Large,
    LargeNear,
    Fan,
    Chains,
    Merging,
    Growing,
    Brush,
    Meeting,
    Marked,
}

/// Each with how often it is taken.
const SHAPES: [(Shape, usize); 13] = [
    (Shape::Weaker, 16),
    (Shape::Near, 16),
    (Shape::Apart, 8),
    (Shape::Identical, 4),
    (Shape::Large, 4),
    (Shape::LargeNear, 4),
    (Shape::Fan, 4),
    (Shape::Chains, 4),
    (Shape::Merging, 2),
    (Shape::Growing, 2),
    (Shape::Brush, 1),
    (Shape::Meeting, 4),
    (Shape::Marked, 4),
];

pub struct Pair {
    pub shape: Shape,
    /// The second subsumes the first by the way it was made.
    pub subsumes: bool,
    pub first: Vec<u8>,
    pub second: Vec<u8>,
}

/// One change that may make the tree say more, or something else.
pub fn change(tree: &mut Tree, draw: &Draw, rng: &mut Rng) {
    let number = rng.below(tree.len());
    let name = draw.name(rng);
    match rng.below(7) {
        0 => tree[number].wanted ^= name,
        1 => tree[number].excluded ^= name,
        2 if number > 0 => tree[number].role = draw.role(rng),
        3 if number > 0 => tree[number].kind ^= KIND_EXISTS ^ KIND_FORALL,
        4 if rng.chance(1, 2) => tree[number].impossible ^= true,
        5 => tree.push(some(number, draw.role(rng), name)),
        6 => tree.push(all(number, draw.role(rng), name)),
        _ => tree[number].wanted |= name,
    }
}

/// Up to so many successors of few sorts, each with one of its own.
fn fan(rng: &mut Rng, draw: &Draw, most: usize) -> Tree {
    let mut tree = vec![root()];
    for _ in 0..1 + rng.below(most) {
        let parent = tree.len();
        tree.push(some(0, draw.first_role as u8, draw.name(rng)));
        tree.push(some(parent, draw.role(rng), draw.name(rng)));
    }
    tree
}

/// One or two chains, mostly of one kind, as deep as may be and one deeper.
fn chains(rng: &mut Rng, draw: &Draw) -> Tree {
    let kind = rng.pick(&[KIND_EXISTS, KIND_FORALL, KIND_FORALL]);
    let edges = if rng.chance(1, 2) { 11 + rng.below(3) } else { 1 + rng.below(12) };
    let mut tree = chain(edges, kind, draw.first_role as u8, draw.name(rng));
    for _ in 0..rng.below(3) {
        change(&mut tree, draw, rng);
    }
    tree
}

/// A chain of value restrictions with existential ones at each level: the merged table grows with their power.
fn growing(rng: &mut Rng, draw: &Draw) -> Tree {
    let (levels, width) = (1 + rng.below(12), 1 + rng.below(3));
    let mut tree = vec![root()];
    let mut parent = 0;
    for _ in 0..levels {
        let next = tree.len();
        tree.push(all(parent, draw.first_role as u8, 0));
        tree.extend((0..width).map(|_| some(parent, draw.first_role as u8, 0)));
        parent = next;
    }
    draw.label(&mut tree[parent], rng);
    tree
}

/// Many successors, each of which needs a chain of individuals to fail the one that the second asks for.
fn brush(rng: &mut Rng, draw: &Draw) -> (Tree, Tree) {
    let role = draw.first_role as u8;
    let mut first = vec![root()];
    let width = if rng.chance(1, 2) { 255 } else { rng.below(256) };
    first.extend((0..width).map(|_| some(0, role, 0)));
    let edges = if rng.chance(1, 2) { 12 } else { 1 + rng.below(12) };
    let mut second = chain(edges, KIND_FORALL, role, draw.name(rng));
    second[1].kind = KIND_EXISTS;
    (first, second)
}

/// About as many pairs of existential restrictions as a common picture may have rows. Most of the value restrictions
/// below them have nothing in common.
fn meeting(rng: &mut Rng, draw: &Draw) -> (Tree, Tree) {
    let count = 12 + rng.below(6);
    let other_count = 256 / count - rng.below(3);
    let (edges, chains) = rng.pick(&[(1, 1), (2, 1), (2, 3), (5, 2), (11, 1)]);
    let role = draw.first_role as u8;
    (hung(rng, role, count, edges, chains, 1), hung(rng, role, other_count, edges, chains, 2))
}

/// So many existential restrictions with chains of value restrictions below each, the ends of which have this name. A
/// node of a chain in between seldom excludes another.
fn hung(rng: &mut Rng, role: u8, count: usize, edges: usize, chains: u8, name: u64) -> Tree {
    let mut tree = vec![root()];
    for _ in 0..count {
        let top = tree.len();
        tree.push(some(0, role, 0));
        for role in 0..chains {
            let from = tree.len();
            tree.extend((0..edges).map(|at| all(if at == 0 { top } else { from + at - 1 }, role, 0)));
            tree[from + edges - 1].wanted = name;
            tree[from + rng.below(edges)].excluded = u64::from(rng.chance(1, 200)) << 9;
        }
    }
    tree
}

/// Value restrictions below the root and below existential ones, some of them impossible on one side or on both, with
/// subtrees of their own on each.
fn marked(rng: &mut Rng, draw: &Draw) -> (Tree, Tree) {
    let mut first = vec![root()];
    let values = 1 + rng.below(6);
    first.extend((0..values).map(|role| all(0, role as u8, draw.name(rng))));
    for _ in 0..rng.below(8) {
        let parent = first.len();
        first.push(some(0, 8, draw.name(rng)));
        first.push(all(parent, 9, draw.name(rng)));
    }
    let mut second = first.clone();
    for tree in [&mut first, &mut second] {
        for node in tree.iter_mut() {
            node.impossible = node.kind == KIND_FORALL && rng.chance(1, 3);
        }
        tree[0].impossible = rng.chance(1, 30);
        for _ in 0..rng.pick(&[1, 5, 40, 100]) {
            let parent = 1 + rng.below(tree.len() - 1);
            let node = if rng.chance(1, 8) { all } else { some };
            tree.push(node(parent, draw.role(rng), draw.name(rng)));
        }
    }
    (first, second)
}

fn trees(shape: Shape, rng: &mut Rng) -> (Tree, Tree) {
    let draw = match shape {
        Shape::Large | Shape::LargeNear => draw_large(rng),
        _ => draw(rng),
    };
    let first = match shape {
        Shape::Fan => fan(rng, &draw, 127),
        Shape::Chains => chains(rng, &draw),
        Shape::Merging => spread(rng.pick(&[14, 15, 16, 16]), 12 + rng.below(4), 8),
        Shape::Growing => growing(rng, &draw),
        Shape::Brush => return brush(rng, &draw),
        Shape::Meeting => return meeting(rng, &draw),
        Shape::Marked => return marked(rng, &draw),
        _ => draw.tree(rng),
    };
    let second = match shape {
        Shape::Weaker | Shape::Large => weaken(&first, rng),
        Shape::Near | Shape::LargeNear => {
            let mut second = weaken(&first, rng);
            change(&mut second, &draw, rng);
            second
        }
        Shape::Apart => draw.tree(rng),
        Shape::Fan => fan(rng, &draw, 20),
        Shape::Chains => chains(rng, &draw),
        Shape::Merging => spread(rng.below(17), rng.below(16), 8),
        Shape::Growing => growing(rng, &draw),
        Shape::Identical | Shape::Brush | Shape::Meeting | Shape::Marked => first.clone(),
    };
    (first, second)
}

fn shape(rng: &mut Rng) -> Shape {
    let mut turn = rng.below(SHAPES.iter().map(|(_, weight)| weight).sum());
    for (shape, weight) in SHAPES {
        if turn < weight {
            return shape;
        }
        turn -= weight;
    }
    unreachable!("a turn is below the sum of the weights")
}

pub fn pair(rng: &mut Rng) -> Pair {
    let shape = shape(rng);
    let (first, second) = trees(shape, rng);
    let (first, second) = (encode(&first), encode(&second));
    // The other way round it is mostly a no.
    if rng.chance(1, 6) {
        return Pair { shape, subsumes: first == second, first: second, second: first };
    }
    let subsumes = first == second || matches!(shape, Shape::Weaker | Shape::Large);
    Pair { shape, subsumes, first, second }
}
