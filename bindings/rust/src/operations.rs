//! Operations of a transaction as bytes, as `crates/entry_code` describes them.

use crate::code::Code;
use crate::rows::Reader;
use crate::value::{Key, Value};

/// What an operation does with its row.
#[derive(Debug, Clone, Copy, PartialEq, Eq)]
pub(crate) enum Kind {
    Insert = 0,
    Update = 1,
    Delete = 2,
}

/// How many bytes the code has before its operations: its version, and how many they are.
const HEAD: usize = 9;

/// The code of a row: its table and its key.
pub(crate) fn row(table: u32, key: &Key) -> Vec<u8> {
    let mut code = Code::default();
    code.row(table, key);
    code.0
}

/// A list of operations that grows.
#[derive(Debug)]
pub(crate) struct Operations {
    code: Code,
    count: usize,
}

impl Operations {
    pub(crate) fn new() -> Operations {
        Operations::after(Code::new())
    }

    /// The same, with room for operations of about so many bytes.
    pub(crate) fn with_room(bytes: usize) -> Operations {
        Operations::after(Code::with_room(HEAD + bytes))
    }

    fn after(mut code: Code) -> Operations {
        code.count(0);
        Operations { code, count: 0 }
    }

    /// Adds an operation on the row of this key, up to its cells.
    pub(crate) fn push(&mut self, kind: Kind, table: u32, key: &Key) {
        self.count += 1;
        self.code.byte(kind as u8);
        self.code.row(table, key);
    }

    /// Adds an operation without cells on the row of this code.
    pub(crate) fn push_row(&mut self, kind: Kind, row: &[u8]) {
        self.count += 1;
        self.code.byte(kind as u8);
        self.code.0.extend_from_slice(row);
        if !matches!(kind, Kind::Delete) {
            self.code.count(0);
        }
    }

    /// Whether an operation is on the row of this code.
    pub(crate) fn names(&self, row: &[u8]) -> bool {
        let mut rest = Reader(&self.code.0[HEAD..]);
        std::iter::from_fn(|| rest.operation()).any(|named| named == row)
    }

    /// Adds operations that change nothing on a row that was read, unless an operation is on it: an
    /// update if it is there, and else an insertion and a deletion.
    pub(crate) fn pin(&mut self, row: &[u8], is_there: bool) {
        if self.names(row) {
            return;
        }
        match is_there {
            true => self.push_row(Kind::Update, row),
            false => {
                self.push_row(Kind::Insert, row);
                self.push_row(Kind::Delete, row);
            }
        }
    }

    /// Adds the cells of the operation that was pushed last, each with its column's number.
    pub(crate) fn push_cells<C: AsRef<str>>(
        &mut self,
        cells: &[(C, Value)],
        number: impl Fn(&str) -> u32,
    ) {
        self.code.count(cells.len());
        for (column, value) in cells {
            self.code.small_number(number(column.as_ref()));
            self.code.value(value);
        }
    }

    /// The code of the whole list.
    pub(crate) fn finish(mut self) -> Code {
        self.code.0[1..HEAD].copy_from_slice(&(self.count as u64).to_be_bytes());
        self.code
    }
}

#[cfg(test)]
mod tests {
    use super::*;

    /// The operations of `crates/entry_code_tests`: insert into table 1 the key "a", true with
    /// nothing in column 1; update it to have 5 there.
    #[test]
    fn operations() {
        let key = Key::from(("a", true));
        let mut operations = Operations::new();
        operations.push(Kind::Insert, 1, &key);
        operations.push_cells(&[("c", Value::Null)], |_| 1);
        operations.push(Kind::Update, 1, &key);
        operations.push_cells(&[("c", 5.into())], |_| 1);
        let wanted = b"\x01\0\0\0\0\0\0\0\x02\0\0\0\0\x01\0\0\0\0\0\0\0\x02\x03a\0\x01\x04\x01\
            \0\0\0\0\0\0\0\x01\0\0\0\x01\x01\x01\0\0\0\x01\0\0\0\0\0\0\0\x02\x03a\0\x01\x04\x01\
            \0\0\0\0\0\0\0\x01\0\0\0\x01\x02\x80\0\0\0\0\0\0\x05";
        assert_eq!(operations.finish().as_bytes(), wanted);
    }

    /// The deletion of `crates/entry_code_tests`: row 7 of table 1 goes.
    #[test]
    fn a_deletion() {
        let mut operations = Operations::new();
        operations.push(Kind::Delete, 1, &Key::from(7));
        let wanted =
            b"\x01\0\0\0\0\0\0\0\x01\x02\0\0\0\x01\0\0\0\0\0\0\0\x01\x02\x80\0\0\0\0\0\0\x07";
        assert_eq!(operations.finish().as_bytes(), wanted);
        assert_eq!(
            Operations::new().finish().as_bytes(),
            b"\x01\0\0\0\0\0\0\0\0"
        );
    }
}
