//! The check of evidence: questions 16 to 23.

use super::table::{Table, HEAD_BYTES, TAG_END};
use super::{field, INDIVIDUAL_BYTES, INDIVIDUAL_VALUE_BYTES, MAX_INDIVIDUALS, ROLES, TAG_INDIVIDUAL, TAG_MAP};

pub enum Taken {
    Map,
    Refutation,
}

/// Which evidence was taken, or the number of the first question whose answer is no.
pub fn check(first: &Table, second: &Table, evidence: &[u8]) -> Result<Taken, u8> {
    if let Some(images) = map_form(evidence, second.count) {
        check_map(first, second, images)?;
        return Ok(Taken::Map);
    }
    let individuals = refutation_form(evidence).ok_or(16)?;
    let mut model = Model::EMPTY;
    if !model.read(individuals) {
        return Err(21);
    }
    if !model.fits(0, first, 0) {
        return Err(22);
    }
    if model.fits(0, second, 0) {
        return Err(23);
    }
    Ok(Taken::Refutation)
}

/// The images, if it is a map file for so many rows.
fn map_form(evidence: &[u8], rows: usize) -> Option<&[u8]> {
    let (head, rest) = evidence.split_first_chunk::<HEAD_BYTES>()?;
    let (images, end) = rest.split_last_chunk::<HEAD_BYTES>()?;
    let form = *head == field::head_bytes(TAG_MAP, 2 * rows) && *end == field::head_bytes(TAG_END, 0);
    (form && images.len() == 2 * rows).then_some(images)
}

/// The fields of the individuals, if it is a refutation file.
fn refutation_form(evidence: &[u8]) -> Option<&[u8]> {
    let (fields, end) = evidence.split_last_chunk::<HEAD_BYTES>()?;
    let count = fields.len() / INDIVIDUAL_BYTES;
    let head = field::head_bytes(TAG_INDIVIDUAL, INDIVIDUAL_VALUE_BYTES);
    let form = fields.len() % INDIVIDUAL_BYTES == 0
        && (1..=MAX_INDIVIDUALS).contains(&count)
        && *end == field::head_bytes(TAG_END, 0)
        && fields.chunks_exact(INDIVIDUAL_BYTES).all(|individual| individual.starts_with(&head));
    form.then_some(fields)
}

fn check_map(first: &Table, second: &Table, images: &[u8]) -> Result<(), u8> {
    let image = |number: usize| usize::from(u16::from_be_bytes([images[2 * number], images[2 * number + 1]]));
    for (number, row) in second.rows[..second.count].iter().enumerate() {
        let to = image(number);
        if to >= first.count {
            return Err(17);
        }
        if number == 0 && to != 0 {
            return Err(18);
        }
        if !row.label_maps(&first.rows[to]) {
            return Err(19);
        }
        if number > 0 {
            let above = image(usize::from(row.parent));
            let joined = to > 0 && usize::from(first.rows[to].parent) == above && first.rows[to].edge == row.edge;
            if !(joined || to == above && first.rows[above].impossible) {
                return Err(20);
            }
        }
    }
    Ok(())
}

#[derive(Clone, Copy)]
struct Individual {
    names: u64,
    parent: u16,
    role: u8,
    /// Links as in a table: 0 is none.
    first: u16,
    next: u16,
}

struct Model {
    individuals: [Individual; MAX_INDIVIDUALS],
}

impl Model {
    const EMPTY: Model =
        Model { individuals: [Individual { names: 0, parent: 0, role: 0, first: 0, next: 0 }; MAX_INDIVIDUALS] };

    /// Reads the individuals, unless 21 is answered no for one of them.
    fn read(&mut self, fields: &[u8]) -> bool {
        let count = fields.len() / INDIVIDUAL_BYTES;
        for (number, individual) in fields.chunks_exact(INDIVIDUAL_BYTES).enumerate() {
            let parent = u16::from_be_bytes([individual[3], individual[4]]);
            let role = individual[5];
            if number == 0 && (parent, role) != (0, 0)
                || number > 0 && (usize::from(parent) >= number || role >= ROLES)
            {
                return false;
            }
            let names = field::load_set(&individual[6..14]);
            self.individuals[number] = Individual { names, parent, role, first: 0, next: 0 };
        }
        for number in (1..count).rev() {
            let parent = usize::from(self.individuals[number].parent);
            self.individuals[number].next = self.individuals[parent].first;
            self.individuals[parent].first = number as u16;
        }
        true
    }

    /// Is the individual an instance of the row?
    fn fits(&self, number: u16, table: &Table, row: u8) -> bool {
        let names = self.individuals[usize::from(number)].names;
        let label = table.row(row);
        if label.impossible || label.wanted & !names != 0 || label.excluded & names != 0 {
            return false;
        }
        table.successors(row).all(|successor| {
            let edge = table.row(successor).edge;
            let mut reached = self.reached(number, edge.role());
            if edge.is_exists() {
                reached.any(|other| self.fits(other, table, successor))
            } else {
                reached.all(|other| self.fits(other, table, successor))
            }
        })
    }

    fn reached(&self, number: u16, role: u8) -> impl Iterator<Item = u16> + '_ {
        let link = |next: u16| (next != 0).then_some(next);
        std::iter::successors(link(self.individuals[usize::from(number)].first), move |&other| {
            link(self.individuals[usize::from(other)].next)
        })
        .filter(move |&other| self.individuals[usize::from(other)].role == role)
    }
}
