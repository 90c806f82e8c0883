//! Damaged pictures, evidence and books.

use super::evidence_files;
use super::reference::field;
use super::reference::most_specific::TAG_CARD;
use super::reference::table::{HEAD_BYTES, ROW_BYTES, TAG_END, VALUE_BYTES};
use super::reference::{INDIVIDUAL_BYTES, MAX_INDIVIDUALS, ROLES, TAG_MAP};
use super::rng::Rng;

/// Numbers next to those that a question compares with.
const LIMITS: [u8; 17] = [0, 1, 2, 3, 0x0B, 0x0F, 0x10, 0x11, 0x15, 0x1F, 0x20, 0x2F, 0x30, 0x41, 0x42, 0x51, 0xFF];

/// Changes a picture that has a row so that one of the questions 2 to 13 is likely to be answered no.
pub fn picture(file: &mut Vec<u8>, rng: &mut Rng) {
    let rows = file.len() / ROW_BYTES;
    let at = rng.below(rows) * ROW_BYTES;
    let end = rows * ROW_BYTES;
    match rng.below(14) {
        0 => file.truncate(at + rng.below(HEAD_BYTES)),
        1 => file[at] = rng.pick(&LIMITS),
        2 => file[at + 1 + rng.below(2)] ^= 1 << rng.below(8),
        3 => file[end + rng.below(HEAD_BYTES)] = rng.byte(),
        4 => file.truncate(at + HEAD_BYTES + rng.below(VALUE_BYTES)),
        5 => *file = field::head_bytes(TAG_END, 0).to_vec(),
        6 => file.extend((0..1 + rng.below(30)).map(|_| rng.byte())),
        7 => file[at + 5] = rng.below(4) as u8,
        8 => file[at + 6] = rng.pick(&[0, 1, ROLES - 1, ROLES, 255]),
        9 => file[at + 3 + rng.below(2)] = rng.byte(),
        10 => file[at + 7] = rng.pick(&[0, 1, 2, 255]),
        11 => field::head(&mut file[at..], TAG_END, 0),
        _ => bytes(file, rng),
    }
}

/// Changes bytes anywhere in a file that is not empty.
pub fn bytes(file: &mut Vec<u8>, rng: &mut Rng) {
    let at = rng.below(file.len());
    match rng.below(6) {
        0 => file.truncate(at),
        1 => file.insert(at, rng.pick(&LIMITS)),
        2 => drop(file.remove(at)),
        3 => file.push(rng.byte()),
        4 => file[at] ^= 1 << rng.below(8),
        _ => file[at] = rng.pick(&LIMITS),
    }
}

/// Changes evidence, mostly its content and not its form. It may have been damaged before.
pub fn evidence(file: &mut Vec<u8>, rng: &mut Rng) {
    match file.first() {
        None => (),
        Some(_) if rng.chance(1, 8) => bytes(file, rng),
        Some(&TAG_MAP) if file.len() >= 2 * HEAD_BYTES + 2 => map(file, rng),
        Some(_) if file.len() >= INDIVIDUAL_BYTES => refutation(file, rng),
        Some(_) => bytes(file, rng),
    }
}

fn map(file: &mut [u8], rng: &mut Rng) {
    let rows = (file.len() - 2 * HEAD_BYTES) / 2;
    let at = HEAD_BYTES + 2 * rng.below(rows);
    let from = HEAD_BYTES + 2 * rng.below(rows);
    match rng.below(4) {
        0 => file.copy_within(from..from + 2, at),
        1 => file[at + rng.below(2)] = rng.pick(&LIMITS),
        2 => file[HEAD_BYTES + 1] = rng.below(3) as u8,
        _ => file[at + 1] = file[at + 1].wrapping_add(rng.pick(&[1, 2, 255])),
    }
}

fn refutation(file: &mut Vec<u8>, rng: &mut Rng) {
    let count = file.len() / INDIVIDUAL_BYTES;
    // Those near the root are asked most.
    let limit = if rng.chance(1, 2) { count.min(3) } else { count };
    let number = rng.below(limit);
    let value = number * INDIVIDUAL_BYTES + HEAD_BYTES;
    match rng.below(7) {
        0 => file[value + 1] = rng.below(number + 2) as u8,
        1 => file[value + 2] = rng.pick(&[0, 8, ROLES - 1, ROLES]),
        2 => drop(file.drain(number * INDIVIDUAL_BYTES..(number + 1) * INDIVIDUAL_BYTES)),
        3 => file[value + 3..value + 11].fill(rng.pick(&[0, 255])),
        4 => drop(file.drain((count - 1) * INDIVIDUAL_BYTES..count * INDIVIDUAL_BYTES)),
        5 => append_copy(file, count, number, rng),
        _ => file[value + 3 + rng.below(8)] ^= 1 << rng.below(8),
    }
}

/// One more individual, like one that is there but maybe below another.
fn append_copy(file: &mut Vec<u8>, count: usize, number: usize, rng: &mut Rng) {
    let mut copy = file[number * INDIVIDUAL_BYTES..(number + 1) * INDIVIDUAL_BYTES].to_vec();
    if rng.chance(1, 2) {
        copy[3..5].copy_from_slice(&(rng.below(count) as u16).to_be_bytes());
    }
    let end = count * INDIVIDUAL_BYTES;
    file.splice(end..end, copy);
}

/// A map file for so many rows with images below the limit.
pub fn random_map(rows: usize, limit: usize, rng: &mut Rng) -> Vec<u8> {
    let images: Vec<usize> = (0..rows).map(|row| if row == 0 { 0 } else { rng.below(limit) }).collect();
    evidence_files::map(&images)
}

/// Individuals in any order of parents, seldom as many as there may be, and then at times one more.
pub fn random_refutation(rng: &mut Rng) -> Vec<u8> {
    let count = if rng.chance(1, 60) { MAX_INDIVIDUALS + rng.below(2) } else { rng.below(6) };
    let role = rng.below(32);
    let names = rng.pick(&[0, !0]);
    let mut individuals = Vec::with_capacity(count);
    for number in 0..count {
        let (parent, role) = if number == 0 { (0, 0) } else { (rng.below(number), role as u8) };
        individuals.push((parent, role, if rng.chance(1, 2) { names } else { rng.next() }));
    }
    evidence_files::refutation(&individuals)
}

/// Changes a whole book, mostly the head of a field.
pub fn book(file: &mut Vec<u8>, rng: &mut Rng) {
    let heads = heads(file);
    let at = rng.pick(&heads);
    let end = file.len() - HEAD_BYTES;
    match rng.below(10) {
        0 => file[at] = rng.pick(&LIMITS),
        1 => file[at + 1] ^= 1 << rng.below(8),
        2 => file[at + 2] = file[at + 2].wrapping_add(rng.pick(&[1, 2, 3, 24, 253, 255])),
        3 => file.truncate(at + rng.below(HEAD_BYTES)),
        4 => file.truncate(end),
        5 => file[end + 2] = 1 + rng.below(3) as u8,
        6 => file.extend((0..1 + rng.below(30)).map(|_| rng.byte())),
        7 => file.splice(at..at, field::head_bytes(TAG_END, 0)).for_each(drop),
        8 => file.splice(at..at, field::head_bytes(TAG_CARD, 0)).for_each(drop),
        _ => bytes(file, rng),
    }
}

/// Where the fields of a whole book begin.
fn heads(book: &[u8]) -> Vec<usize> {
    let mut heads = vec![0];
    let mut at = 0;
    while book[at] == TAG_CARD {
        at += HEAD_BYTES + usize::from(u16::from_be_bytes([book[at + 1], book[at + 2]]));
        heads.push(at);
    }
    heads
}
