//! The countermodel where there is no homomorphism: a tree of individuals whose root is an instance of the first
//! description and not of the second.
//!
//! An individual for a row of the first has the wanted names and reaches one individual for each existential
//! restriction; as value restrictions are propagated in a normal table, that makes it an instance. Where it has to
//! fail a row of the second it differs from that in one way. A label is failed by the names alone. An existential
//! restriction without an image is failed by all that are reached by its role. A value restriction without an image
//! is failed by one more individual, for the value restriction of the first by that role, or for none. Each row of
//! the first is used once, and what hangs from none is a chain, so that there are at most 256 times 13 individuals.

use super::homomorphism::Search;
use super::table::{Row, Table, HEAD_BYTES, TAG_END};
use super::{field, INDIVIDUAL_BYTES, INDIVIDUAL_VALUE_BYTES, TAG_INDIVIDUAL};

/// After a no: writes the refutation file; gives its length.
pub fn write(first: &Table, second: &Table, search: &Search, file: &mut [u8]) -> usize {
    let mut writer = Writer { first, second, search, file, count: 0 };
    writer.failing(0, 0, 0, 0);
    let end = usize::from(writer.count) * INDIVIDUAL_BYTES;
    field::head(&mut file[end..], TAG_END, 0);
    end + HEAD_BYTES
}

struct Writer<'a> {
    first: &'a Table,
    second: &'a Table,
    search: &'a Search<'a>,
    file: &'a mut [u8],
    count: u16,
}

impl Writer<'_> {
    /// Writes one individual; gives its number.
    fn individual(&mut self, parent: u16, role: u8, names: u64) -> u16 {
        let at = usize::from(self.count) * INDIVIDUAL_BYTES;
        let field = &mut self.file[at..at + INDIVIDUAL_BYTES];
        field::head(field, TAG_INDIVIDUAL, INDIVIDUAL_VALUE_BYTES);
        field[3..5].copy_from_slice(&parent.to_be_bytes());
        field[5] = role;
        field[6..14].copy_from_slice(&names.to_be_bytes());
        self.count += 1;
        self.count - 1
    }

    /// An instance of a row of the first.
    fn instance(&mut self, parent: u16, role: u8, row: u8) {
        let number = self.individual(parent, role, self.first.row(row).wanted);
        self.reached(number, row, 0);
    }

    /// An instance of a row of the first that fails a row of the second, which the search could not send there.
    fn failing(&mut self, parent: u16, role: u8, row: u8, fails: u8) {
        let (is, is_not) = (self.first.row(row), self.second.row(fails));
        let number = self.individual(parent, role, failing_names(is, is_not));
        let missing = self.search.missing(row);
        if missing == 0 || self.second.row(missing).edge.is_exists() {
            self.reached(number, row, missing);
            return;
        }
        let edge = self.second.row(missing).edge;
        match self.first.successors(row).find(|&successor| self.first.row(successor).edge == edge) {
            Some(restriction) => self.failing(number, edge.role(), restriction, missing),
            None => self.failing_alone(number, edge.role(), missing),
        }
        self.reached(number, row, 0);
    }

    /// One individual for each existential restriction of a row. Those with the edge of the missing row fail it.
    fn reached(&mut self, number: u16, row: u8, missing: u8) {
        let first = self.first;
        let failed = (missing != 0).then(|| self.second.row(missing).edge);
        for successor in first.successors(row) {
            let edge = first.row(successor).edge;
            if Some(edge) == failed {
                self.failing(number, edge.role(), successor, missing);
            } else if edge.is_exists() {
                self.instance(number, edge.role(), successor);
            }
        }
    }

    /// An individual of which nothing is asked but that it fails a row of the second. A row without a label has a
    /// successor, or it would have been dropped.
    fn failing_alone(&mut self, parent: u16, role: u8, fails: u8) {
        let is_not = self.second.row(fails);
        let number = self.individual(parent, role, failing_names(&Row::EMPTY, is_not));
        let below = self.second.row(is_not.first);
        if !is_not.has_label() && !below.edge.is_exists() {
            self.failing_alone(number, below.edge.role(), is_not.first);
        }
    }
}

/// Names of an instance of a row that fail another row's label, if there are such.
fn failing_names(is: &Row, is_not: &Row) -> u64 {
    let wanted_decides = is_not.wanted & !is.wanted != 0;
    if wanted_decides || is_not.excluded & !is.excluded == 0 {
        is.wanted
    } else {
        !is.excluded
    }
}
