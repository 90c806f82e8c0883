//! Trees at random. Names and roles are few, so that one often subsumes another.

use super::rng::Rng;
use super::trees::{all, root, some, Node, Tree};

/// What the nodes of a tree are drawn from. Chances are of 16.
#[derive(Clone, Copy)]
pub struct Draw {
    pub nodes: usize,
    pub depth: usize,
    pub roles: usize,
    pub first_role: usize,
    pub names: usize,
    pub first_name: usize,
    pub forall: usize,
    pub deep: usize,
    pub named: usize,
    pub impossible: usize,
}

pub fn draw(rng: &mut Rng) -> Draw {
    let most = rng.pick(&[2, 4, 8, 8, 16, 16, 30, 60]);
    Draw {
        nodes: 1 + rng.below(most),
        depth: rng.pick(&[1, 2, 3, 4, 12]),
        roles: 1 + rng.below(3),
        first_role: rng.below(30),
        names: 1 + rng.below(4),
        first_name: rng.below(61),
        forall: rng.pick(&[0, 2, 5, 8, 13]),
        deep: rng.pick(&[0, 4, 12]),
        named: rng.pick(&[2, 6, 10]),
        impossible: rng.pick(&[0, 0, 0, 1, 2]),
    }
}

/// Rows up to the limit and one over it, with few value restrictions, so that most have a merged table.
pub fn draw_large(rng: &mut Rng) -> Draw {
    let from = rng.pick(&[60, 150, 216]);
    let nodes = if rng.chance(1, 4) { 255 + rng.below(3) } else { from + rng.below(40) };
    Draw { nodes, forall: rng.pick(&[0, 0, 1]), impossible: 0, names: 3, ..draw(rng) }
}

impl Draw {
    pub fn name(&self, rng: &mut Rng) -> u64 {
        1 << (self.first_name + rng.below(self.names))
    }

    pub fn role(&self, rng: &mut Rng) -> u8 {
        (self.first_role + rng.below(self.roles)) as u8
    }

    pub fn label(&self, node: &mut Node, rng: &mut Rng) {
        for _ in 0..2 {
            if rng.chance(self.named, 16) {
                node.wanted |= self.name(rng);
            }
        }
        if rng.chance(self.named, 48) {
            node.excluded |= self.name(rng) & !node.wanted;
        }
        // Mostly no clash: a root that is inconsistent hides the rest.
        if rng.chance(1, 200) {
            node.excluded |= node.wanted;
        }
        node.impossible = rng.chance(self.impossible, 128);
    }

    pub fn tree(&self, rng: &mut Rng) -> Tree {
        let mut tree = vec![root()];
        let mut depths = vec![0];
        self.label(&mut tree[0], rng);
        for number in 1..self.nodes {
            let mut parent = if rng.chance(self.deep, 16) { number - 1 } else { rng.below(number) };
            if depths[parent] == self.depth {
                parent = 0;
            }
            depths.push(depths[parent] + 1);
            let role = self.role(rng);
            let mut node = if rng.chance(self.forall, 16) { all(parent, role, 0) } else { some(parent, role, 0) };
            self.label(&mut node, rng);
            tree.push(node);
        }
        tree
    }
}
