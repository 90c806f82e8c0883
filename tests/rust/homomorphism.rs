//! The homomorphism test between normal tables.
//!
//! The tables are trees, so that a pair of rows is reached by one way only and is tested at most once. One search
//! leaves enough behind for either evidence: the successor that each row was sent to last, which is its image in the
//! lowest homomorphism if there is one, and the row that each row of the first failed to take last, which is where a
//! countermodel has to fail if there is none.

use super::table::{Table, HEAD_BYTES, MAX_ROWS, TAG_END};
use super::{field, TAG_MAP};

pub struct Search<'a> {
    /// The table of the specific description, where the images are.
    first: &'a Table,
    /// The table of the general description.
    second: &'a Table,
    images: [u8; MAX_ROWS],
    /// For a row of the first: the successor, of the row of the second it was last tested with, that has no image
    /// below it. 0 where the labels decided.
    missing: [u8; MAX_ROWS],
}

impl<'a> Search<'a> {
    pub fn new(first: &'a Table, second: &'a Table) -> Search<'a> {
        Search { first, second, images: [0; MAX_ROWS], missing: [0; MAX_ROWS] }
    }

    /// Is there a homomorphism from the second to the first?
    pub fn run(&mut self) -> bool {
        self.second.row(0).label_maps(self.first.row(0)) && self.maps_below(0, 0)
    }

    pub fn missing(&self, image: u8) -> u8 {
        self.missing[usize::from(image)]
    }

    /// Can what is below the row of the second be sent below, or to, this row of the first? Their labels agree.
    fn maps_below(&mut self, row: u8, image: u8) -> bool {
        let (second, to) = (self.second, self.first.row(image));
        if to.impossible {
            return true;
        }
        // Successors of both are ordered by edge: what is passed over for one is passed over for the next.
        let mut candidate = to.first;
        for successor in second.successors(row) {
            let edge = second.row(successor).edge;
            while candidate != 0 && self.first.row(candidate).edge < edge {
                candidate = self.first.row(candidate).next;
            }
            if !self.finds(successor, candidate) {
                self.missing[usize::from(image)] = successor;
                return false;
            }
        }
        true
    }

    /// Sends a successor to the first row that takes it, from this candidate on, by an edge like its own.
    fn finds(&mut self, successor: u8, mut candidate: u8) -> bool {
        let (first, row) = (self.first, self.second.row(successor));
        while candidate != 0 {
            let to = first.row(candidate);
            if to.edge != row.edge {
                break;
            }
            self.missing[usize::from(candidate)] = 0;
            if row.label_maps(to) && self.maps_below(successor, candidate) {
                self.images[usize::from(successor)] = candidate;
                return true;
            }
            candidate = to.next;
        }
        false
    }

    /// After a yes: writes the lowest homomorphism as a map file; gives its length.
    pub fn write_map(&mut self, file: &mut [u8]) -> usize {
        let rows = self.second.count;
        let end = HEAD_BYTES + 2 * rows;
        field::head(file, TAG_MAP, 2 * rows);
        file[HEAD_BYTES..HEAD_BYTES + 2].fill(0);
        for number in 1..rows {
            // Below an impossible image nothing was searched: all goes there.
            let above = self.images[usize::from(self.second.rows[number].parent)];
            if self.first.row(above).impossible {
                self.images[number] = above;
            }
            let at = HEAD_BYTES + 2 * number;
            file[at..at + 2].copy_from_slice(&[0, self.images[number]]);
        }
        field::head(&mut file[end..], TAG_END, 0);
        end + HEAD_BYTES
    }
}
