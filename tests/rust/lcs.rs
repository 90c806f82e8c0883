//! The least common subsumer of two descriptions: the product of their normal tables.
//!
//! One pass makes the rows, as fields of the file, in a place of their own. A value restriction that says nothing is
//! cut off the end again once all below it is done, so that only rows that stay are counted in the end; and the result
//! buffer is not touched before it is known that they are few enough.

use super::field;
use super::table::{Row, Table, HEAD_BYTES, MAX_DEPTH, MAX_ROWS, ROW_BYTES, TAG_END};

/// The common picture has more than 256 rows.
pub struct TooLarge;

/// Rows that may yet be dropped are on one way down from the root, each at another depth.
const ROOM: usize = MAX_ROWS + MAX_DEPTH as usize;

/// Writes the common picture of two normal tables; gives its length.
pub fn write(first: &Table, second: &Table, result: &mut [u8]) -> Result<usize, TooLarge> {
    let mut product = Product { first, second, fields: [[0; ROW_BYTES]; ROOM], count: 0 };
    product.pair(0, 0, 0)?;
    let fields = product.fields[..product.count].as_flattened();
    result[..fields.len()].copy_from_slice(fields);
    field::head(&mut result[fields.len()..], TAG_END, 0);
    Ok(fields.len() + HEAD_BYTES)
}

struct Product<'a> {
    first: &'a Table,
    second: &'a Table,
    fields: [[u8; ROW_BYTES]; ROOM],
    count: usize,
}

impl Product<'_> {
    /// Makes the pair of two rows, which have one edge, and all below it.
    fn pair(&mut self, row: u8, other: u8, parent: usize) -> Result<(), TooLarge> {
        let (one, two) = (self.first.row(row), self.second.row(other));
        if one.impossible {
            return self.copy(self.second, other, parent);
        }
        if two.impossible {
            return self.copy(self.first, row, parent);
        }
        let label = Row { wanted: one.wanted & two.wanted, excluded: one.excluded & two.excluded, ..*one };
        let number = self.count;
        let stays = number == 0 || label.edge.is_exists() || label.has_label();
        if stays && number >= MAX_ROWS {
            return Err(TooLarge);
        }
        self.push(&label, parent);
        self.pair_successors(one.first, two.first, number)?;
        if !stays && self.count == number + 1 {
            self.count = number;
        }
        Ok(())
    }

    /// Pairs the successors from these on. Those of both are ordered by edge; there is one value restriction by a role,
    /// so that what is so of existential ones, each with each, is so of it too.
    fn pair_successors(&mut self, mut row: u8, mut other: u8, parent: usize) -> Result<(), TooLarge> {
        let (first, second) = (self.first, self.second);
        while row != 0 && other != 0 {
            let (edge, other_edge) = (first.row(row).edge, second.row(other).edge);
            if other_edge < edge {
                other = second.row(other).next;
                continue;
            }
            let mut partner = other;
            while partner != 0 && second.row(partner).edge == edge {
                self.pair(row, partner, parent)?;
                partner = second.row(partner).next;
            }
            row = first.row(row).next;
        }
        Ok(())
    }

    /// Copies a row of a normal table and all below it. These rows stay, and so do all above them.
    fn copy(&mut self, table: &Table, row: u8, parent: usize) -> Result<(), TooLarge> {
        let (from, number) = (usize::from(row), self.count);
        let below = table.rows[from + 1..table.count].iter().take_while(|below| usize::from(below.parent) >= from);
        let end = number + 1 + below.clone().count();
        if end > MAX_ROWS {
            return Err(TooLarge);
        }
        self.push(table.row(row), parent);
        for row in below {
            self.push(row, usize::from(row.parent) - from + number);
        }
        Ok(())
    }

    fn push(&mut self, row: &Row, parent: usize) {
        row.write(self.count, parent as u8, &mut self.fields[self.count]);
        self.count += 1;
    }
}
