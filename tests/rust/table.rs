//! Tables of rows: a picture read from its file, and a normal table written as one.

use super::{field, ROLES};

pub const MAX_ROWS: usize = 256;
pub const MAX_DEPTH: u8 = 12;
pub const HEAD_BYTES: usize = 3;
pub const VALUE_BYTES: usize = 21;
pub const ROW_BYTES: usize = HEAD_BYTES + VALUE_BYTES;
pub const MAX_BYTES: usize = MAX_ROWS * ROW_BYTES + HEAD_BYTES;

pub const TAG_ROW: u8 = 0x10;
pub const TAG_END: u8 = 0x2F;

pub const KIND_ROOT: u8 = 0;
pub const KIND_EXISTS: u8 = 1;
pub const KIND_FORALL: u8 = 2;

/// The edge to a row. Edges compare as successors are ordered: by role, the value restriction first.
#[derive(Clone, Copy, PartialEq, Eq, PartialOrd, Ord)]
pub struct Edge(u8);

impl Edge {
    /// In the place of the root's, which has none.
    pub const ROOT: Edge = Edge(0);

    pub fn new(kind: u8, role: u8) -> Edge {
        Edge(role << 1 | u8::from(kind == KIND_EXISTS))
    }

    pub fn role(self) -> u8 {
        self.0 >> 1
    }

    pub fn is_exists(self) -> bool {
        self.0 & 1 == 1
    }

    fn kind(self) -> u8 {
        if self.is_exists() {
            KIND_EXISTS
        } else {
            KIND_FORALL
        }
    }

    /// The edge and then a row's number, as one number.
    pub fn key(self, row: u8) -> u16 {
        u16::from(self.0) << 8 | u16::from(row)
    }

    pub fn of_key(key: u16) -> Edge {
        Edge((key >> 8) as u8)
    }
}

/// Row numbers are bytes, so that no index into a table needs a test. Row 0 is nobody's successor: as a link, 0 is
/// none.
#[derive(Clone, Copy)]
pub struct Row {
    pub wanted: u64,
    pub excluded: u64,
    pub parent: u8,
    pub edge: Edge,
    pub impossible: bool,
    pub first: u8,
    pub next: u8,
}

impl Row {
    /// A row that says nothing.
    pub const EMPTY: Row =
        Row { wanted: 0, excluded: 0, parent: 0, edge: Edge::ROOT, impossible: false, first: 0, next: 0 };

    /// Says something of an instance, but for what its successors say.
    pub fn has_label(&self) -> bool {
        self.impossible || self.wanted | self.excluded != 0
    }

    /// Writes the field of the row, as the one of this number. Row 0 has no edge.
    #[inline]
    pub fn write(&self, number: usize, parent: u8, field: &mut [u8]) {
        let (kind, role) = if number == 0 { (KIND_ROOT, 0) } else { (self.edge.kind(), self.edge.role()) };
        field::head(field, TAG_ROW, VALUE_BYTES);
        field[3..8].copy_from_slice(&[0, parent, kind, role, u8::from(self.impossible)]);
        field[8..16].copy_from_slice(&self.wanted.to_be_bytes());
        field[16..24].copy_from_slice(&self.excluded.to_be_bytes());
    }

    /// Does the image carry the row's names and mark, or is it impossible? One test for both sets of names: which of
    /// them fails is hard to foresee.
    pub fn label_maps(&self, image: &Row) -> bool {
        let lacking = self.wanted & !image.wanted | self.excluded & !image.excluded;
        lacking == 0 && !self.impossible || image.impossible
    }
}

/// Why a picture is refused: the question; the row that was being read, which is the number of those that were read
/// before it; and the byte where its field begins.
#[derive(Clone, Copy)]
pub struct Refused {
    pub question: u8,
    pub row: usize,
    pub byte: usize,
}

pub struct Table {
    pub rows: [Row; MAX_ROWS],
    pub count: usize,
}

impl Table {
    pub const EMPTY: Table = Table { rows: [Row::EMPTY; MAX_ROWS], count: 0 };

    /// Empties the table. Its rows stay where they are: none beyond the count is looked at.
    pub fn clear(&mut self) {
        self.count = 0;
    }

    pub fn row(&self, number: u8) -> &Row {
        &self.rows[usize::from(number)]
    }

    /// The numbers of a row's successors, in their order.
    pub fn successors(&self, number: u8) -> Successors<'_> {
        Successors { table: self, next: self.row(number).first }
    }

    /// Reads a picture into an empty table, or says why it is refused, and where.
    pub fn read(&mut self, file: &[u8]) -> Result<(), Refused> {
        let mut depths = [0; MAX_ROWS];
        let mut rest = file;
        loop {
            match self.read_field(rest, &mut depths) {
                Ok(Some(after)) => rest = after,
                Ok(None) => break,
                Err(question) => return Err(Refused { question, row: self.count, byte: file.len() - rest.len() }),
            }
        }
        self.link();
        Ok(())
    }

    /// Reads the field that the rest of the file begins with; gives what is after a row, and nothing after the end.
    #[inline]
    fn read_field<'a>(&mut self, rest: &'a [u8], depths: &mut [u8; MAX_ROWS]) -> Result<Option<&'a [u8]>, u8> {
        let (head, after) = rest.split_first_chunk::<HEAD_BYTES>().ok_or(2)?;
        let length = u16::from_be_bytes([head[1], head[2]]);
        match (head[0], usize::from(length)) {
            (TAG_ROW, VALUE_BYTES) => {
                ask(5, self.count < MAX_ROWS)?;
                let (value, after) = after.split_first_chunk().ok_or(6)?;
                self.read_row(value, depths)?;
                Ok(Some(after))
            }
            (TAG_END, 0) => {
                ask(7, self.count > 0)?;
                ask(8, after.is_empty())?;
                Ok(None)
            }
            (TAG_ROW | TAG_END, _) => Err(4),
            _ => Err(3),
        }
    }

    fn read_row(&mut self, value: &[u8; VALUE_BYTES], depths: &mut [u8; MAX_ROWS]) -> Result<(), u8> {
        let number = self.count;
        let parent = usize::from(u16::from_be_bytes([value[0], value[1]]));
        let (kind, role, impossible) = (value[2], value[3], value[4]);
        if number == 0 {
            ask(9, kind == KIND_ROOT)?;
            ask(10, role == 0)?;
            ask(11, parent == 0)?;
        } else {
            ask(9, kind == KIND_EXISTS || kind == KIND_FORALL)?;
            ask(10, role < ROLES)?;
            ask(11, parent < number)?;
            depths[number] = depths[parent] + 1;
            ask(12, depths[number] <= MAX_DEPTH)?;
        }
        ask(13, impossible <= 1)?;
        self.rows[number] = Row {
            wanted: field::load_set(&value[5..13]),
            excluded: field::load_set(&value[13..21]),
            parent: parent as u8,
            edge: Edge::new(kind, role),
            impossible: impossible == 1,
            ..Row::EMPTY
        };
        self.count += 1;
        Ok(())
    }

    /// From the last row on, so that each row comes before those of its siblings that are linked already.
    pub fn link(&mut self) {
        for number in (1..self.count).rev() {
            let parent = usize::from(self.rows[number].parent);
            self.rows[number].next = self.rows[parent].first;
            self.rows[parent].first = number as u8;
        }
    }

    /// Writes the table as a picture file; gives its length.
    pub fn write(&self, file: &mut [u8]) -> usize {
        let mut fields = file.chunks_exact_mut(ROW_BYTES);
        for (number, row) in self.rows[..self.count].iter().enumerate() {
            row.write(number, row.parent, fields.next().expect("a table fits its buffer"));
        }
        let end = self.count * ROW_BYTES;
        field::head(&mut file[end..], TAG_END, 0);
        end + HEAD_BYTES
    }
}

fn ask(question: u8, yes: bool) -> Result<(), u8> {
    if yes {
        Ok(())
    } else {
        Err(question)
    }
}

pub struct Successors<'a> {
    table: &'a Table,
    next: u8,
}

impl Iterator for Successors<'_> {
    type Item = u8;

    fn next(&mut self) -> Option<u8> {
        let number = self.next;
        self.next = self.table.row(number).next;
        (number != 0).then_some(number)
    }
}
