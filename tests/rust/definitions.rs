//! Definitions: what is asked of them, and of pictures that use them; and pictures unfolded.
//!
//! Nothing is unfolded before it is known that it may be: how many rows there will be, and how deep they are, is
//! reckoned from what each definition adds to a row that takes it in. An unfolded row is then found by its path: the
//! row of the picture that it comes from, and for each definition that was taken in on the way, the name and the row
//! of that definition. The rows are numbered by sorting the paths, shorter ones first.

use super::table::{Row, Table, HEAD_BYTES, MAX_DEPTH, MAX_ROWS, TAG_END};
use super::{of_card, refusal, refusal_at, Input};

pub const TAG_DEFINITION: u8 = 0x61;
pub const MAX_DEFINITIONS: usize = 32;
pub const NAMES: usize = 64;

/// A picture that is asked about, and the word of its refusal, without the question.
pub type Given<'a> = (&'a Table, u64);

struct Definition {
    name: u8,
    table: Table,
}

/// A book of definitions that were read, of which no name is defined twice.
pub struct Definitions {
    list: Vec<Definition>,
    /// The names that are defined.
    names: u64,
}

/// What a definition adds to a row that takes it in: rows, and the edges down to the lowest of them.
#[derive(Clone, Copy, Default)]
struct Size {
    rows: u64,
    depth: u64,
}

/// The values of a book's fields, each with its name; nothing if it is not one.
fn split(book: &[u8]) -> Option<Vec<(u8, &[u8])>> {
    let mut fields = Vec::new();
    let mut rest = book;
    loop {
        let (head, after) = rest.split_first_chunk::<HEAD_BYTES>()?;
        let length = usize::from(u16::from_be_bytes([head[1], head[2]]));
        match head[0] {
            TAG_DEFINITION if fields.len() < MAX_DEFINITIONS => {
                let (value, next) = after.split_at_checked(length)?;
                let (&name, picture) = value.split_first()?;
                if usize::from(name) >= NAMES {
                    return None;
                }
                fields.push((name, picture));
                rest = next;
            }
            TAG_END if length == 0 && after.is_empty() => return Some(fields),
            _ => return None,
        }
    }
}

fn of_book(question: u8) -> u64 {
    refusal(Input::Definitions, question)
}

fn of_definition(number: usize) -> u64 {
    of_card(number, refusal(Input::Definition, 0))
}

fn with_question(given: u64, question: u8) -> u64 {
    given | refusal(Input::Buffer, question)
}

impl Definitions {
    /// 25, 2 to 13 of each, and 26.
    pub fn read(book: &[u8]) -> Result<Definitions, u64> {
        let mut definitions = Definitions { list: Vec::new(), names: 0 };
        let mut twice = false;
        for (number, (name, picture)) in split(book).ok_or(of_book(25))?.into_iter().enumerate() {
            let mut table = Table::EMPTY;
            table.read(picture).map_err(|refused| of_card(number, refusal_at(Input::Definition, refused)))?;
            twice |= definitions.names >> name & 1 == 1;
            definitions.names |= 1 << name;
            definitions.list.push(Definition { name, table });
        }
        if twice {
            return Err(of_book(26));
        }
        Ok(definitions)
    }

    /// Are there none? Then nothing is to be asked or unfolded.
    pub fn are_none(&self) -> bool {
        self.list.is_empty()
    }

    /// 27 to 30: each of the pictures that are given, and then of the definitions, before the next.
    pub fn ask(&self, given: &[Given]) -> Result<(), u64> {
        let own = self.list.iter().enumerate().map(|(number, one)| (&one.table, of_definition(number)));
        let all: Vec<Given> = given.iter().copied().chain(own).collect();
        let first = |question: u8, no: &dyn Fn(&Table) -> bool| {
            let refused = all.iter().find(|(table, _)| no(table));
            refused.map_or(Ok(()), |&(_, word)| Err(with_question(word, question)))
        };
        first(27, &|table| rows(table).any(|row| row.excluded & self.names != 0))?;
        let sizes = self.sizes().ok_or(of_book(28))?;
        first(29, &|table| self.size(table, 0, &sizes).rows > MAX_ROWS as u64)?;
        first(30, &|table| self.size(table, 0, &sizes).depth > u64::from(MAX_DEPTH))
    }

    /// The definition of a name that has one.
    fn definition(&self, name: u8) -> &Table {
        &self.list.iter().find(|one| one.name == name).expect("a name that is defined").table
    }

    /// The size of each definition, by name; nothing if there is a ring: then some definition is never the next whose
    /// own names have sizes.
    fn sizes(&self) -> Option<[Option<Size>; NAMES]> {
        let mut sizes = [None; NAMES];
        for _ in &self.list {
            let is_next = |one: &&Definition| {
                let wanted = rows(&one.table).fold(0, |names, row| names | row.wanted & self.names);
                sizes[usize::from(one.name)].is_none() && names(wanted).all(|name| sizes[usize::from(name)].is_some())
            };
            let next = self.list.iter().find(is_next)?;
            sizes[usize::from(next.name)] = Some(self.size(&next.table, 1, &sizes));
        }
        Some(sizes)
    }

    /// The rows of a table, from one on, with what they take in.
    fn size(&self, table: &Table, from: usize, sizes: &[Option<Size>; NAMES]) -> Size {
        let mut depths = [0; MAX_ROWS];
        let mut size = Size::default();
        for (number, row) in rows(table).enumerate() {
            if number > 0 {
                depths[number] = depths[usize::from(row.parent)] + 1;
            }
            if number < from {
                continue;
            }
            size.rows = size.rows.saturating_add(1);
            size.depth = size.depth.max(depths[number]);
            for name in names(self.taken_in(row.wanted)) {
                let added = sizes[usize::from(name)].expect("what is mentioned has a size");
                size.rows = size.rows.saturating_add(added.rows);
                size.depth = size.depth.max(depths[number] + added.depth);
            }
        }
        size
    }

    /// The names of the definitions that a row takes in that wants these names.
    fn taken_in(&self, wanted: u64) -> u64 {
        let mut taken = 0;
        self.take_in(wanted, &mut taken);
        taken
    }

    fn take_in(&self, wanted: u64, taken: &mut u64) {
        for name in names(wanted & self.names) {
            if *taken >> name & 1 == 0 {
                *taken |= 1 << name;
                self.take_in(self.definition(name).row(0).wanted, taken);
            }
        }
    }

    /// A picture unfolded, of which nothing of 27 to 30 was answered no.
    pub fn unfold(&self, picture: &Table) -> Table {
        let mut found = Vec::new();
        let mut path = Path::new();
        for (number, row) in rows(picture).enumerate() {
            path.push(step(0, number));
            let parent = vec![step(0, usize::from(row.parent))];
            self.find(row, &mut path, parent, &mut found);
            path.pop();
        }
        found.sort_by(|(one, ..), (other, ..)| (one.len(), one).cmp(&(other.len(), other)));
        let mut table = Table::EMPTY;
        for (number, (_, parent, row)) in found.iter().enumerate() {
            let at = found.binary_search_by(|(path, ..)| (path.len(), path).cmp(&(parent.len(), parent)));
            table.rows[number] = Row { parent: at.expect("a parent is a row") as u8, ..*row };
        }
        table.count = found.len();
        table.link();
        table
    }

    /// A row, and all that it gains and that those gain.
    fn find(&self, row: &Row, path: &mut Path, parent: Path, found: &mut Vec<(Path, Path, Row)>) {
        let taken = self.taken_in(row.wanted);
        let mut label = Row { first: 0, next: 0, ..*row };
        for name in names(taken) {
            let root = self.definition(name).row(0);
            label.wanted |= root.wanted;
            label.excluded |= root.excluded;
            label.impossible |= root.impossible;
        }
        label.wanted &= !self.names;
        found.push((path.clone(), parent, label));
        for name in names(taken) {
            for (number, gained) in rows(self.definition(name)).enumerate().skip(1) {
                let parent = match gained.parent {
                    0 => path.clone(),
                    above => [&path[..], &[step(name, usize::from(above))]].concat(),
                };
                path.push(step(name, number));
                self.find(gained, path, parent, found);
                path.pop();
            }
        }
    }
}

/// A name and the row of its definition, as one number; the first is a row of the picture.
type Path = Vec<u16>;

fn step(name: u8, row: usize) -> u16 {
    u16::from(name) << 8 | row as u16
}

fn rows(table: &Table) -> impl Iterator<Item = &Row> {
    table.rows[..table.count].iter()
}

/// The names in a set of them.
fn names(set: u64) -> impl Iterator<Item = u8> {
    (0..NAMES as u8).filter(move |name| set >> name & 1 == 1)
}
