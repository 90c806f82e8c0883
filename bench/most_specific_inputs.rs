//! Cases and books that are timed: each maker gives the case and the cards.

use super::parts::{card, regathered_late, R, S};
use super::reference::most_specific::MAX_CARDS;
use super::reference::table::MAX_ROWS;
use super::rng::Rng;
use super::trees::{root, some, spread, Tree};
use super::weaken::reword;

pub type Book = (Tree, Vec<Tree>);

const ROWS: usize = 20;
const DEPTH: usize = 3;

/// A card of 10 to 20 rows.
fn small(rng: &mut Rng) -> Tree {
    card(10 + rng.below(11), DEPTH, rng)
}

/// A case of 20 rows with three names at each.
fn named(rng: &mut Rng) -> Tree {
    let mut tree = card(ROWS, DEPTH, rng);
    for node in &mut tree {
        node.wanted |= 1 << rng.below(32) | 1 << rng.below(32);
    }
    tree
}

/// The case without its last rows, up to ten, and with fewer names.
fn weaker(case: &Tree, rng: &mut Rng) -> Tree {
    let mut tree = case[..ROWS - rng.below(11)].to_vec();
    for node in &mut tree {
        node.wanted &= if rng.chance(1, 4) { rng.next() } else { !0 };
    }
    tree
}

/// As many cards as there may be, of which five are weaker than the case; the others have nothing to do with it.
pub fn typical(rng: &mut Rng) -> Book {
    let case = named(rng);
    let cards = (0..MAX_CARDS).map(|n| if n % 6 == 3 { weaker(&case, rng) } else { small(rng) }).collect();
    (case, cards)
}

pub fn apart(rng: &mut Rng) -> Book {
    let case = named(rng);
    (case, (0..MAX_CARDS).map(|_| small(rng)).collect())
}

/// All weaker than the case, each in its own way.
pub fn covering(rng: &mut Rng) -> Book {
    let case = named(rng);
    let cards = (0..MAX_CARDS).map(|_| weaker(&case, rng)).collect();
    (case, cards)
}

/// The names that decide between cards, as many as there may be cards.
fn letter(number: usize) -> u64 {
    1 << (32 + number)
}

/// A case of so many rows, with each of these names at one of them.
fn lettered(rows: usize, rng: &mut Rng) -> Tree {
    let mut case = card(rows, DEPTH, rng);
    for node in &mut case {
        node.excluded = 0;
    }
    for number in 0..MAX_CARDS {
        case[number % rows].wanted |= letter(number);
    }
    case
}

/// Takes away one of these names.
fn unletter(tree: &mut Tree, number: usize) {
    let rows = tree.len();
    tree[number % rows].wanted &= !letter(number);
}

/// Each card lacks one name more than the one before it, and subsumes that. The most specific one is the first, or the
/// last, or anywhere.
pub fn chain(rows: usize, rng: &mut Rng) -> Book {
    let case = lettered(rows, rng);
    let mut tree = case.clone();
    let lacking = |number| {
        unletter(&mut tree, number);
        tree.clone()
    };
    let cards = (0..MAX_CARDS).map(lacking).collect();
    (case, cards)
}

pub fn chain_reversed(rows: usize, rng: &mut Rng) -> Book {
    let (case, mut cards) = chain(rows, rng);
    cards.reverse();
    (case, cards)
}

pub fn chain_shuffled(rows: usize, rng: &mut Rng) -> Book {
    let (case, mut cards) = chain(rows, rng);
    rng.shuffle(&mut cards);
    (case, cards)
}

/// Each card lacks one name of the case, and has all that others lack. The most specific cards are all of them.
pub fn antichain(rows: usize, count: usize, rng: &mut Rng) -> Book {
    let case = lettered(rows, rng);
    let lacking = |number| {
        let mut tree = case.clone();
        unletter(&mut tree, number);
        tree
    };
    let cards = (0..count).map(lacking).collect();
    (case, cards)
}

/// The same card at every place.
pub fn copies(rows: usize, rng: &mut Rng) -> Book {
    let case = lettered(rows, rng);
    (case.clone(), vec![case; MAX_CARDS])
}

/// Each card says the same in other words: rows in another order, some of them twice.
pub fn equivalent(rows: usize, rng: &mut Rng) -> Book {
    let case = lettered(rows, rng);
    let cards = (0..MAX_CARDS).map(|_| reword(&case, rng)).collect();
    (case, cards)
}

/// The same with 16 cards, two of each, of which none subsumes another.
pub fn equivalent_pairs(rows: usize, rng: &mut Rng) -> Book {
    let (case, cards) = antichain(rows, MAX_CARDS / 2, rng);
    let cards = cards.iter().flat_map(|card| [reword(card, rng), reword(card, rng)]).collect();
    (case, cards)
}

pub fn empty(rng: &mut Rng) -> Book {
    (named(rng), Vec::new())
}

/// A tree whose rows ask for these names, but the last, which asks for every one that others ask for and for some
/// besides.
type Late = fn(names: u64, every: u64, besides: u64) -> Tree;

/// 255 existential restrictions.
fn fan(names: u64, every: u64, besides: u64) -> Tree {
    let mut tree = vec![some(0, R, names); MAX_ROWS];
    tree[0] = root();
    tree[MAX_ROWS - 1].wanted = every | besides;
    tree
}

/// 127 with one below each.
fn pairs(names: u64, every: u64, besides: u64) -> Tree {
    let mut tree = vec![root()];
    for _ in 0..127 {
        tree.push(some(0, R, 0));
        tree.push(some(tree.len() - 1, S, names));
    }
    tree[254].wanted = every | besides;
    tree
}

/// Each row of a card asks for a name that in any other card, and in the case, only the last row has; the last row of a
/// card asks for these higher names too, which decide.
fn late(tree: Late, higher: fn(usize) -> u64) -> Book {
    let lower = 0xFFFF_FFFF;
    let card = |card: usize| tree(1 << card, lower, higher(card) << 32);
    (tree(0, lower, !0), (0..MAX_CARDS).map(card).collect())
}

/// No card subsumes another: each is compared with each, and every row with every row.
fn apart_late(tree: Late) -> Book {
    late(tree, |card| 1 << card)
}

pub fn fans(_: &mut Rng) -> Book {
    apart_late(fan)
}

pub fn fans_chain(_: &mut Rng) -> Book {
    late(fan, |card| (2 << card) - 1)
}

/// All say the same.
pub fn fans_equivalent(_: &mut Rng) -> Book {
    late(fan, |_| 1)
}

pub fn some_some(_: &mut Rng) -> Book {
    apart_late(pairs)
}

/// Tables that are slow to make, for each pair again.
pub fn worst(_: &mut Rng) -> Book {
    apart_late(regathered_late)
}

/// Few rows that merge to the most there may be, with a name each.
pub fn merged(_: &mut Rng) -> Book {
    let with = |names: u64| {
        let mut tree = spread(16, 14, R);
        tree[0].wanted = names;
        tree
    };
    (with(0xFFFF_FFFF), (0..MAX_CARDS).map(|card| with(1 << card)).collect())
}
