//! Pairs of pictures with refutations whose check is timed. Each is taken, and as late as can be: in those with
//! siblings every individual meets every row of its depth first, of both tables.

use super::calls::Input;
use super::parts::{DEPTH, R};
use super::reference::field;
use super::reference::table::{MAX_ROWS, TAG_END};
use super::reference::{INDIVIDUAL_VALUE_BYTES, MAX_INDIVIDUALS, ROLES, TAG_INDIVIDUAL};
use super::trees::{all, encode, root, some, Node, Tree};

const LAST_ROLE: u8 = ROLES - 1;

/// What late rows ask for: one name, and not another. Nearly all individuals have both, so that a row is failed by its
/// last name.
const WANTED: u64 = 1 << 63;
const EXCLUDED: u64 = 1;

struct Individual {
    parent: usize,
    role: u8,
    names: u64,
}

const WITNESS: Individual = Individual { parent: 0, role: 0, names: 0 };

fn input(first: &Tree, second: &Tree, model: &[Individual]) -> Input {
    let mut evidence = Vec::new();
    for individual in model {
        evidence.extend(field::head_bytes(TAG_INDIVIDUAL, INDIVIDUAL_VALUE_BYTES));
        evidence.extend((individual.parent as u16).to_be_bytes());
        evidence.push(individual.role);
        evidence.extend(individual.names.to_be_bytes());
    }
    evidence.extend(field::head_bytes(TAG_END, 0));
    Input { first: encode(first), second: encode(second), evidence, ..Input::default() }
}

/// What a number hangs from in a brush: a chain of so many edges, and all the rest below its end.
fn above(number: usize, edges: usize) -> usize {
    edges.min(number.saturating_sub(1))
}

/// A brush of existential restrictions. `last`: what the last one wants besides.
fn brush(rows: usize, edges: usize, last: u64) -> Tree {
    let mut tree = vec![root()];
    for number in 1..rows {
        let late = number > edges;
        let (wanted, excluded) = if late { (WANTED, EXCLUDED) } else { (0, 0) };
        tree.push(Node { excluded, ..some(above(number, edges), R, wanted) });
    }
    tree[rows - 1].wanted |= WANTED | last;
    tree[rows - 1].excluded |= EXCLUDED;
    tree
}

/// A brush of individuals, of which all but the last have these names.
fn individuals(count: usize, edges: usize, names: u64) -> Vec<Individual> {
    let individual = |number: usize| Individual {
        parent: above(number, edges),
        role: if number == 0 { 0 } else { R },
        names: if number < count - 1 { names } else { WANTED },
    };
    (0..count).map(individual).collect()
}

/// Brushes of individuals and of rows. Only the last individual is an instance of any late row, and not of the second's
/// last row.
fn brushes(rows: usize, count: usize, edges: usize) -> Input {
    let (first, second) = (brush(rows, edges, 0), brush(rows, edges, EXCLUDED << 1));
    input(&first, &second, &individuals(count, edges, WANTED | EXCLUDED))
}

/// At the lowest depth, and at the highest.
pub fn siblings(rows: usize, count: usize) -> Input {
    brushes(rows, count, 0)
}

pub fn deep_siblings() -> Input {
    brushes(MAX_ROWS, MAX_INDIVIDUALS, DEPTH - 1)
}

/// A chain of all individuals, and rows of which it meets one at each depth and all at the last.
pub fn chain() -> Input {
    let (first, second) = (brush(MAX_ROWS, DEPTH - 1, 0), brush(MAX_ROWS, DEPTH - 1, EXCLUDED << 1));
    input(&first, &second, &individuals(MAX_INDIVIDUALS, MAX_INDIVIDUALS, WANTED))
}

/// Late rows that each have restrictions below: value restrictions by so many roles, of which nothing is reached, and
/// an existential one, which only the last sibling has.
fn inner(values: usize, last: u64) -> Tree {
    let mut tree = vec![root()];
    let groups = (MAX_ROWS - 1) / (values + 2);
    for _ in 0..groups {
        let parent = tree.len();
        tree.push(Node { excluded: EXCLUDED, ..some(0, R, WANTED) });
        tree.extend((0..values).map(|role| all(parent, role as u8, WANTED)));
        tree.push(some(parent, LAST_ROLE, WANTED));
    }
    tree[groups * (values + 2)].wanted |= last;
    tree
}

pub fn inner_siblings(values: usize) -> Input {
    let mut model = vec![WITNESS];
    model.extend((2..MAX_INDIVIDUALS).map(|_| Individual { role: R, names: WANTED, ..WITNESS }));
    model.push(Individual { parent: MAX_INDIVIDUALS - 2, role: LAST_ROLE, names: WANTED });
    input(&inner(values, 0), &inner(values, EXCLUDED), &model)
}

/// Rows with 50 below each.
fn groups(last: u64) -> Tree {
    let mut tree = vec![root()];
    for _ in 0..5 {
        let parent = tree.len();
        tree.push(some(0, R, WANTED));
        tree.extend((1..50).map(|_| some(parent, LAST_ROLE, WANTED)));
        tree.push(some(parent, LAST_ROLE, WANTED | EXCLUDED));
    }
    tree[5 * 51].wanted |= last;
    tree
}

/// Siblings that reach one individual each. That is an instance of all 50 but the last, and the last one's of that too.
pub fn reaching() -> Input {
    let mut model = vec![WITNESS];
    while model.len() + 2 <= MAX_INDIVIDUALS {
        model.push(Individual { role: R, names: WANTED, ..WITNESS });
        model.push(Individual { parent: model.len() - 1, role: LAST_ROLE, names: WANTED });
    }
    model.last_mut().expect("there is the witness").names |= EXCLUDED;
    input(&groups(0), &groups(EXCLUDED << 1), &model)
}

/// Value restrictions by all roles, and as many individuals by each. The last one fails the second's last row.
pub fn by_roles() -> Input {
    let mut first = vec![root()];
    first.extend((0..ROLES).map(|role| all(0, role, WANTED)));
    let mut second = first.clone();
    second[usize::from(ROLES)].excluded = EXCLUDED;
    let reached = |number: usize| Individual { role: (number % 32) as u8, names: WANTED, ..WITNESS };
    let mut model: Vec<Individual> = (0..MAX_INDIVIDUALS).map(reached).collect();
    model[MAX_INDIVIDUALS - 1].names |= EXCLUDED;
    input(&first, &second, &model)
}
