//! Books of definitions at random, and pictures that use them. Most of them are accepted.

use super::book;
use super::damage;
use super::draw::{draw, Draw};
use super::reference::definitions::{MAX_DEFINITIONS, NAMES};
use super::reference::field;
use super::reference::table::{HEAD_BYTES, KIND_EXISTS, ROW_BYTES};
use super::rng::Rng;
use super::trees::{chain, encode, root, some};

/// Where the names of a row stand in its field.
const WANTED: usize = HEAD_BYTES + 5;
const EXCLUDED: usize = WANTED + NAMES / 8;

pub struct Defined {
    pub names: Vec<u8>,
    pub book: Vec<u8>,
}

/// The wanted and the excluded names of each whole row become what is said.
fn relabel(picture: &mut [u8], mut label: impl FnMut(u64, u64) -> (u64, u64)) {
    for row in picture.chunks_exact_mut(ROW_BYTES) {
        let (wanted, excluded) =
            label(field::load_set(&row[WANTED..EXCLUDED]), field::load_set(&row[EXCLUDED..ROW_BYTES]));
        row[WANTED..EXCLUDED].copy_from_slice(&wanted.to_be_bytes());
        row[EXCLUDED..ROW_BYTES].copy_from_slice(&excluded.to_be_bytes());
    }
}

fn set(names: &[u8]) -> u64 {
    names.iter().fold(0, |set, name| set | 1 << name)
}

/// Rows of a picture want some of these names, so many times of 16, and none of those that are defined excludes any.
fn mention_some(picture: &mut [u8], names: &[u8], often: usize, defined: u64, rng: &mut Rng) {
    relabel(picture, |mut wanted, excluded| {
        wanted &= !defined;
        while !names.is_empty() && rng.chance(often, 16) {
            wanted |= 1 << rng.pick(names);
        }
        (wanted, excluded & !defined)
    });
}

impl Defined {
    /// Makes a picture use the definitions; seldom it excludes one of them.
    pub fn mention(&self, picture: &mut [u8], rng: &mut Rng) {
        let often = rng.pick(&[0, 1, 2, 4, 8]);
        mention_some(picture, &self.names, often, set(&self.names), rng);
        if !self.names.is_empty() && rng.chance(1, 40) {
            let excluded = 1 << rng.pick(&self.names);
            let mut turn = rng.below(picture.len() / ROW_BYTES + 1);
            relabel(picture, |wanted, others| {
                turn = turn.wrapping_sub(1);
                (wanted, if turn == 0 { others | excluded } else { others })
            });
        }
    }
}

/// Mostly a few, seldom one more than there may be.
fn count(rng: &mut Rng) -> usize {
    match rng.below(40) {
        0 => 0,
        1 => MAX_DEFINITIONS + 1,
        2..4 => MAX_DEFINITIONS,
        4..8 => 1 + rng.below(MAX_DEFINITIONS),
        _ => 1 + rng.below(5),
    }
}

/// The picture of a definition, without names of others.
fn picture(rng: &mut Rng) -> Vec<u8> {
    match rng.below(64) {
        0 => encode(&[vec![root()], vec![some(0, 8, 0); 200 + rng.below(58)]].concat()),
        1 => encode(&chain(8 + rng.below(6), KIND_EXISTS, 8, 0)),
        _ => {
            let most = rng.pick(&[1, 3, 3, 6, 12]);
            encode(&Draw { nodes: 1 + rng.below(most), ..draw(rng) }.tree(rng))
        }
    }
}

/// Each uses only those after it in a hidden order; seldom any, so that there may be a ring.
pub fn defined(rng: &mut Rng) -> Defined {
    let mut all: Vec<u8> = (0..NAMES as u8).collect();
    rng.shuffle(&mut all);
    let mut names = all[..count(rng)].to_vec();
    let any = rng.chance(1, 16);
    let often = rng.pick(&[0, 2, 4, 8]);
    let mut definitions = Vec::new();
    for (at, &name) in names.iter().enumerate() {
        let mut picture = picture(rng);
        let used = if any { &names[..] } else { &names[at + 1..] };
        mention_some(&mut picture, used, often, set(&names), rng);
        definitions.push((name, picture));
    }
    rng.shuffle(&mut definitions);
    spoil(&mut definitions, rng);
    let mut file = book::definitions(&definitions);
    if rng.chance(1, 20) {
        damage::bytes(&mut file, rng);
    }
    names.sort_unstable();
    Defined { names, book: file }
}

/// Seldom a definition cannot be read, excludes a name that is defined, or has the name of another.
fn spoil(definitions: &mut [(u8, Vec<u8>)], rng: &mut Rng) {
    if definitions.is_empty() || !rng.chance(1, 8) {
        return;
    }
    let at = rng.below(definitions.len());
    let name = definitions[rng.below(definitions.len())].0;
    match rng.below(4) {
        0 => relabel(&mut definitions[at].1, |wanted, excluded| (wanted, excluded | 1 << name)),
        1 => definitions[at].0 = name,
        _ => damage::picture(&mut definitions[at].1, rng),
    }
}
