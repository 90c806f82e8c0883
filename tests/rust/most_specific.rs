//! The most specific cards of a book that subsume a case.
//!
//! Cards are read in turn, and each is made its normal table and compared with the case at once; a card that subsumes
//! the case is kept, so that no table is made twice. A card that cannot be read is refused before a merged table that
//! is too large, of whichever picture: such a refusal waits until all have been read. Where there are definitions, all
//! cards are read and unfolded first.

use std::{array, iter};

use super::homomorphism::Search;
use super::normal::{self, TooLarge};
use super::table::{Table, HEAD_BYTES, TAG_END};
use super::{of_card, refusal, refusal_at, unfold, Input, Under, NOTHING};

pub const TAG_CARD: u8 = 0x51;
pub const MAX_CARDS: usize = 32;

/// The set of these cards, or the word of the refusal.
pub fn find(under: Under, case: &[u8], book: &[u8]) -> Result<u32, u64> {
    let mut picture = Table::EMPTY;
    picture.read(case).map_err(|refused| refusal_at(Input::First, refused))?;
    let (cards, count) = split(book).ok_or(refusal(Input::Book, 24))?;
    if under.definitions != NOTHING.definitions {
        return find_unfolded(under, picture, &cards[..count]);
    }
    let mut found = Found::new(&picture);
    for (card, file) in cards[..count].iter().enumerate() {
        read_card(&mut picture, card, file)?;
        found.add(card, &picture);
    }
    found.most_specific()
}

/// The same under definitions.
fn find_unfolded(under: Under, case: Table, cards: &[&[u8]]) -> Result<u32, u64> {
    let mut pictures = vec![case];
    for (card, file) in cards.iter().enumerate() {
        let mut picture = Table::EMPTY;
        read_card(&mut picture, card, file)?;
        pictures.push(picture);
    }
    let inputs = iter::once(refusal(Input::First, 0)).chain((0..).map(|card| of_card(card, refusal(Input::Card, 0))));
    unfold(under, &mut pictures.iter_mut().zip(inputs).collect::<Vec<_>>())?;
    let mut found = Found::new(&pictures[0]);
    for (card, picture) in pictures[1..].iter().enumerate() {
        found.add(card, picture);
    }
    found.most_specific()
}

fn read_card(picture: &mut Table, card: usize, file: &[u8]) -> Result<(), u64> {
    picture.clear();
    picture.read(file).map_err(|refused| of_card(card, refusal_at(Input::Card, refused)))
}

/// The case, the cards that were kept so far, and the first refusal by 14.
struct Found {
    instance: Table,
    kept: Kept,
    too_large: Option<u64>,
}

impl Found {
    fn new(case: &Table) -> Found {
        let mut instance = Table::EMPTY;
        let too_large = normal::normalize(case, &mut instance).err().map(|TooLarge| refusal(Input::First, 14));
        let kept = Kept { tables: array::from_fn(|_| None), cards: [0; MAX_CARDS], count: 0 };
        Found { instance, kept, too_large }
    }

    fn add(&mut self, card: usize, picture: &Table) {
        if self.too_large.is_none() {
            let added = self.kept.add(card, picture, &self.instance);
            self.too_large = added.err().map(|TooLarge| of_card(card, refusal(Input::Card, 14)));
        }
    }

    fn most_specific(&self) -> Result<u32, u64> {
        self.too_large.map_or_else(|| Ok(self.kept.most_specific()), Err)
    }
}

/// The values of a book's fields, and how many there are; nothing if it is not a book.
fn split(book: &[u8]) -> Option<([&[u8]; MAX_CARDS], usize)> {
    let mut cards: [&[u8]; MAX_CARDS] = [&[]; MAX_CARDS];
    let mut count = 0;
    let mut rest = book;
    loop {
        let (head, after) = rest.split_first_chunk::<HEAD_BYTES>()?;
        let length = usize::from(u16::from_be_bytes([head[1], head[2]]));
        match head[0] {
            TAG_CARD if count < MAX_CARDS => {
                (cards[count], rest) = after.split_at_checked(length)?;
                count += 1;
            }
            TAG_END if length == 0 && after.is_empty() => return Some((cards, count)),
            _ => return None,
        }
    }
}

/// The cards that subsume the case, with their normal tables. There is a table in a place from when it is first needed.
struct Kept {
    tables: [Option<Table>; MAX_CARDS],
    cards: [u8; MAX_CARDS],
    count: usize,
}

impl Kept {
    /// Keeps a card if it subsumes the case.
    fn add(&mut self, card: usize, picture: &Table, instance: &Table) -> Result<(), TooLarge> {
        let table = self.tables[self.count].get_or_insert_with(|| Table::EMPTY);
        table.clear();
        normal::normalize(picture, table)?;
        if Search::new(instance, table).run() {
            self.cards[self.count] = card as u8;
            self.count += 1;
        }
        Ok(())
    }

    /// The set of those that are not passed over. A card is passed over if it is above another one: if it subsumes that
    /// one, which does not subsume it in return.
    fn most_specific(&self) -> u32 {
        let found = (0..self.count).fold(0, |found, at| self.with(found, at));
        places(found).map(|at| 1 << self.cards[at]).sum()
    }

    /// The places of the earlier cards that are not passed over so far, with this one's if it is not.
    ///
    /// A card that is passed over is left out from then on: what is above it is above one that is not, too. Once this
    /// card subsumes one, the rest is left out: it is above that one and passed over, or equivalent and is not; and
    /// what is above it is above that one too, and was passed over before.
    fn with(&self, found: u32, at: usize) -> u32 {
        match places(found).find(|&other| self.subsumes(at, other)) {
            Some(other) if self.subsumes(other, at) => found | 1 << at,
            Some(_) => found,
            None => {
                let left = places(found).filter(|&other| !self.subsumes(other, at));
                left.fold(1 << at, |found, other| found | 1 << other)
            }
        }
    }

    fn subsumes(&self, general: usize, specific: usize) -> bool {
        Search::new(self.table(specific), self.table(general)).run()
    }

    fn table(&self, at: usize) -> &Table {
        self.tables[at].as_ref().expect("a card that is kept has a table")
    }
}

/// The places in a set of them.
fn places(mut set: u32) -> impl Iterator<Item = usize> {
    iter::from_fn(move || {
        let place = (set != 0).then_some(set.trailing_zeros() as usize);
        set &= set.wrapping_sub(1);
        place
    })
}
