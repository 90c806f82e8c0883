//! Cases and books at random. Most cards are made from the case, so that many subsume it and each other, and often some
//! mean the same: by the same bytes, or by others.

use super::draw::{draw, draw_large, Draw};
use super::pairs::change;
use super::reference::most_specific::MAX_CARDS;
use super::rng::Rng;
use super::trees::{encode, root, spread, Node, Tree};
use super::weaken::{filter, reword, weaken};

#[derive(Clone, Copy, Debug)]
pub enum Shape {
    Weaker,
    Chain,
    Lattice,
    Antichain,
    Twins,
    Groups,
    Same,
    Near,
    Apart,
    Marked,
    Large,
    Merging,
    Mixed,
}

/// Each with how often it is taken.
const SHAPES: [(Shape, usize); 13] = [
    (Shape::Weaker, 8),
    (Shape::Chain, 6),
    (Shape::Lattice, 12),
    (Shape::Antichain, 6),
    (Shape::Twins, 12),
    (Shape::Groups, 8),
    (Shape::Same, 4),
    (Shape::Near, 8),
    (Shape::Apart, 4),
    (Shape::Marked, 4),
    (Shape::Large, 2),
    (Shape::Merging, 2),
    (Shape::Mixed, 12),
];

pub struct Book {
    pub shape: Shape,
    pub case: Vec<u8>,
    pub cards: Vec<Vec<u8>>,
}

/// What cards are made from.
struct Maker {
    draw: Draw,
    case: Tree,
    /// What a card of a lattice lacks is some of these: all of a node, or its names.
    removals: Vec<(usize, bool)>,
    cards: Vec<Tree>,
}

impl Maker {
    fn new(shape: Shape, rng: &mut Rng) -> Maker {
        let draw = match shape {
            Shape::Large => draw_large(rng),
            Shape::Apart | Shape::Near => draw(rng),
            _ => draw_varied(rng),
        };
        let case = match shape {
            Shape::Merging => spread(rng.pick(&[14, 15, 16]), 12 + rng.below(4), 8),
            Shape::Marked if rng.chance(1, 3) => vec![Node { impossible: true, ..root() }],
            _ => draw.tree(rng),
        };
        let removals = (0..1 + rng.below(8)).map(|_| (rng.below(case.len()), rng.chance(1, 2))).collect();
        Maker { draw, case, removals, cards: Vec::new() }
    }

    /// A card that was made before, or the case.
    fn earlier(&self, rng: &mut Rng) -> Tree {
        let at = rng.below(self.cards.len() + 1);
        self.cards.get(at).unwrap_or(&self.case).clone()
    }

    /// The case without some of the removals, by the bits of a number. Of two such cards, one that lacks all that the
    /// other lacks subsumes it; mostly, else neither does.
    fn lacking(&self, bits: u64) -> Tree {
        let mut tree = self.case.clone();
        let mut gone = vec![false; tree.len()];
        for (at, &(number, names)) in self.removals.iter().enumerate() {
            if bits >> at & 1 == 1 && names {
                (tree[number].wanted, tree[number].excluded) = (0, 0);
            } else if bits >> at & 1 == 1 {
                gone[number] = true;
            }
        }
        filter(&tree, |number| !gone[number])
    }

    fn near(&self, rng: &mut Rng) -> Tree {
        let mut card = weaken(&self.case, rng);
        for _ in 0..1 + rng.below(2) {
            change(&mut card, &self.draw, rng);
        }
        card
    }

    /// A card one of whose nodes, often the root, may be impossible.
    fn marked(&self, rng: &mut Rng) -> Tree {
        let mut card = weaken(&self.case, rng);
        let at = if rng.chance(1, 2) { 0 } else { rng.below(card.len()) };
        card[at].impossible |= rng.chance(1, 2);
        card
    }

    fn card(&self, shape: Shape, rng: &mut Rng) -> Tree {
        match shape {
            Shape::Weaker | Shape::Large => weaken(&weaken(&self.case, rng), rng),
            Shape::Chain => weaken(self.cards.last().unwrap_or(&self.case), rng),
            Shape::Lattice => self.lacking(rng.next()),
            Shape::Antichain => self.lacking(1 << (self.cards.len() % self.removals.len())),
            Shape::Twins if rng.chance(1, 2) => again(self.earlier(rng), rng),
            Shape::Twins => weaken(&self.earlier(rng), rng),
            Shape::Groups => again(self.lacking(1 << rng.below(3)), rng),
            Shape::Same => again(self.lacking(1), rng),
            Shape::Near => self.near(rng),
            Shape::Apart => self.draw.tree(rng),
            Shape::Marked => self.marked(rng),
            Shape::Merging => spread(rng.below(17), rng.below(16), 8),
            Shape::Mixed => self.card(pick(rng), rng),
        }
    }
}

/// A card of the same meaning, often by other bytes.
fn again(card: Tree, rng: &mut Rng) -> Tree {
    if rng.chance(1, 3) {
        card
    } else {
        reword(&card, rng)
    }
}

/// Many names, so that nodes seldom say what others say.
fn draw_varied(rng: &mut Rng) -> Draw {
    let most = rng.pick(&[8, 16, 30]);
    Draw { nodes: 2 + rng.below(most), names: 40, first_name: 0, named: 14, ..draw(rng) }
}

fn pick(rng: &mut Rng) -> Shape {
    let mut turn = rng.below(SHAPES.iter().map(|(_, weight)| weight).sum());
    for (shape, weight) in SHAPES {
        if turn < weight {
            return shape;
        }
        turn -= weight;
    }
    unreachable!("a turn is below the sum of the weights")
}

/// Seldom one card more than there may be.
fn count(rng: &mut Rng) -> usize {
    match rng.below(32) {
        0 => 0,
        1..4 => MAX_CARDS,
        4 => MAX_CARDS + 1,
        5..12 => 1 + rng.below(MAX_CARDS),
        _ => 1 + rng.below(8),
    }
}

pub fn book(rng: &mut Rng) -> Book {
    let shape = pick(rng);
    let mut maker = Maker::new(shape, rng);
    for _ in 0..count(rng) {
        let card = maker.card(shape, rng);
        maker.cards.push(card);
    }
    let mut cards: Vec<Vec<u8>> = maker.cards.iter().map(|card| encode(card)).collect();
    arrange(&mut cards, rng);
    Book { shape, case: encode(&maker.case), cards }
}

/// In any order. As they are made, what is more specific often comes first.
fn arrange(cards: &mut [Vec<u8>], rng: &mut Rng) {
    match rng.below(8) {
        0 => (),
        1 => cards.reverse(),
        _ => rng.shuffle(cards),
    }
}
