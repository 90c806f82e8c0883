//! The normal table of a picture.
//!
//! Merged rows are made depth first, and each is put right as soon as all below it are: what breaks or is dropped is
//! cut off the end of the table again. They are counted all the same, since question 14 is about the merged table.

use std::ops::Range;

use super::table::{Edge, Row, Table, MAX_ROWS};

/// The merged table has more than 256 rows.
pub struct TooLarge;

/// Writes the picture's normal table into an empty table.
pub fn normalize(picture: &Table, normal: &mut Table) -> Result<(), TooLarge> {
    let mut merge = Merge { picture, normal, merged: 0, keys: [0; MAX_ROWS], keys_end: 0 };
    merge.expand(Some(0), 0..0, 0, Edge::ROOT)?;
    Ok(())
}

struct Merge<'a> {
    picture: &'a Table,
    normal: &'a mut Table,
    merged: usize,
    /// What hangs from the rows that are being expanded, by edge and row. Each of those is of another depth than the
    /// others, and so is what hangs from it in the picture: all together is no more than the picture's rows.
    keys: [u16; MAX_ROWS],
    keys_end: usize,
}

impl Merge<'_> {
    /// Makes the row that stands for a some-successor's row of the picture, if there is one, with the value
    /// restrictions at these keys, and all below it. The row is the table's last but for those below; gives its
    /// number.
    fn expand(&mut self, own: Option<u8>, shared: Range<usize>, parent: u8, edge: Edge) -> Result<u8, TooLarge> {
        if self.merged == MAX_ROWS {
            return Err(TooLarge);
        }
        self.merged += 1;
        let number = self.normal.count as u8;
        let begin = self.keys_end;
        let mut row = Row { parent, edge, ..Row::EMPTY };
        if let Some(member) = own {
            self.add(&mut row, member);
        }
        for at in shared {
            self.add(&mut row, self.keys[at] as u8);
        }
        let end = self.keys_end;
        self.keys[begin..end].sort_unstable();
        row.impossible |= row.wanted & row.excluded != 0;
        self.normal.rows[usize::from(number)] = row;
        self.normal.count += 1;
        self.expand_successors(begin..end, number)?;
        self.keys_end = begin;
        self.settle(number);
        Ok(number)
    }

    /// Unites the row with one of the picture's.
    fn add(&mut self, row: &mut Row, member: u8) {
        let picture = self.picture;
        let from = picture.row(member);
        row.wanted |= from.wanted;
        row.excluded |= from.excluded;
        row.impossible |= from.impossible;
        for successor in picture.successors(member) {
            self.keys[self.keys_end] = picture.row(successor).edge.key(successor);
            self.keys_end += 1;
        }
    }

    fn expand_successors(&mut self, keys: Range<usize>, parent: u8) -> Result<(), TooLarge> {
        let mut last = 0;
        let mut at = keys.start;
        while at < keys.end {
            let edge = Edge::of_key(self.keys[at]);
            let role = edge.role();
            let shared = at..at + self.run(at..keys.end, |e| e == edge && !edge.is_exists());
            at = shared.end;
            if !shared.is_empty() {
                let number = self.expand(None, shared.clone(), parent, edge)?;
                self.hang(number, parent, &mut last);
            }
            let existential = at..at + self.run(at..keys.end, |e| e.role() == role);
            at = existential.end;
            for at in existential {
                let key = self.keys[at];
                let number = self.expand(Some(key as u8), shared.clone(), parent, Edge::of_key(key))?;
                self.hang(number, parent, &mut last);
            }
        }
        Ok(())
    }

    /// How many of the keys, from the first on, have such an edge.
    fn run(&self, keys: Range<usize>, test: impl Fn(Edge) -> bool) -> usize {
        self.keys[keys].iter().take_while(|&&key| test(Edge::of_key(key))).count()
    }

    /// A row whose successors are done: it is emptied if it is inconsistent, and dropped if it is a value restriction
    /// that says nothing.
    fn settle(&mut self, number: u8) {
        let row = &mut self.normal.rows[usize::from(number)];
        if row.impossible {
            *row = Row { parent: row.parent, edge: row.edge, impossible: true, ..Row::EMPTY };
            self.normal.count = usize::from(number) + 1;
        } else if number > 0 && !row.edge.is_exists() && row.first == 0 && !row.has_label() {
            self.normal.count = usize::from(number);
        }
    }

    /// Links a row, unless it was dropped, after its parent's last successor.
    fn hang(&mut self, number: u8, parent: u8, last: &mut u8) {
        if self.normal.count == usize::from(number) {
            return;
        }
        let row = self.normal.row(number);
        let breaks = row.impossible && row.edge.is_exists();
        self.normal.rows[usize::from(parent)].impossible |= breaks;
        match *last {
            0 => self.normal.rows[usize::from(parent)].first = number,
            sibling => self.normal.rows[usize::from(sibling)].next = number,
        }
        *last = number;
    }
}
