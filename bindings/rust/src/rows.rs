//! Rows, and the bytes that they come as, as `crates/entry_code` describes them.

use crate::error::Error;
use crate::names::Names;
use crate::operations::Kind;
use crate::value::Value;

/// A row that a query found: its key, and the columns that the query selects.
///
/// ```
/// # use cagzhomul::{Db, Table, Type, Value};
/// # let db = Db::open([Table::new("t").key("id", Type::Int).column("a", Type::Int)])?;
/// # db.lease(0)?.txn().insert("t", 1, [("a", 5)]).commit(0)?;
/// for row in db.query(0, "select * from t")? {
///     assert_eq!(row.key(), [Value::Int(1)]);
///     assert_eq!(row.cells(), [("a".to_string(), Value::Int(5))]);
///     assert_eq!((row.get("a"), row.get("b")), (Some(&Value::Int(5)), None));
/// }
/// # Ok::<(), cagzhomul::Error>(())
/// ```
#[derive(Debug, Clone, PartialEq, Eq)]
pub struct Row {
    key: Vec<Value>,
    cells: Vec<(String, Value)>,
}

impl Row {
    fn new(key: Vec<Value>, cells: Vec<(String, Value)>) -> Row {
        Row { key, cells }
    }

    /// The primary key: the values of the key columns in their order.
    pub fn key(&self) -> &[Value] {
        &self.key
    }

    /// The selected columns by rising number, each with its value.
    pub fn cells(&self) -> &[(String, Value)] {
        &self.cells
    }

    /// The value of the column of this name; `None` if the query did not select it.
    pub fn get(&self, column: &str) -> Option<&Value> {
        let cell = self.cells.iter().find(|(name, _)| name == column)?;
        Some(&cell.1)
    }
}

/// What is left to read of a code.
pub(crate) struct Reader<'a>(pub(crate) &'a [u8]);

impl<'a> Reader<'a> {
    pub(crate) fn bytes(&mut self, count: usize) -> Option<&'a [u8]> {
        let (taken, rest) = self.0.split_at_checked(count)?;
        self.0 = rest;
        Some(taken)
    }

    pub(crate) fn byte(&mut self) -> Option<u8> {
        self.bytes(1).map(|bytes| bytes[0])
    }

    pub(crate) fn number(&mut self) -> Option<u64> {
        Some(u64::from_be_bytes(self.bytes(8)?.try_into().ok()?))
    }

    pub(crate) fn small_number(&mut self) -> Option<u32> {
        Some(u32::from_be_bytes(self.bytes(4)?.try_into().ok()?))
    }

    /// Takes bytes, after how many they are.
    pub(crate) fn data(&mut self) -> Option<&'a [u8]> {
        let length = usize::try_from(self.number()?).ok()?;
        self.bytes(length)
    }

    /// Takes a text up to its end. A zero that is not the end is followed by 255.
    fn text(&mut self) -> Option<String> {
        let end = self.0.windows(2).position(|pair| pair == [0, 1])?;
        let mut coded = self.bytes(end + 2)?[..end].iter();
        let mut bytes = Vec::with_capacity(end);
        while let Some(&byte) = coded.next() {
            bytes.push(byte);
            if byte == 0 && coded.next() != Some(&255) {
                return None;
            }
        }
        String::from_utf8(bytes).ok()
    }

    pub(crate) fn value(&mut self) -> Option<Value> {
        match self.byte()? {
            1 => Some(Value::Null),
            2 => self.number().map(|it| Value::Int((it ^ (1 << 63)) as i64)),
            3 => self.text().map(Value::Text),
            4 => self.byte().map(|it| Value::Bool(it == 1)),
            _ => None,
        }
    }

    /// Takes a list of items; a code that announces more than it has ends at the first that lacks.
    pub(crate) fn list<T>(
        &mut self,
        mut item: impl FnMut(&mut Self) -> Option<T>,
    ) -> Option<Vec<T>> {
        (0..self.number()?).map(|_| item(self)).collect()
    }

    /// Takes an operation; the answer is the code of its row.
    pub(crate) fn operation(&mut self) -> Option<&'a [u8]> {
        let kind = self.byte()?;
        let from = self.0;
        self.small_number()?;
        self.list(Reader::value)?;
        let row = &from[..from.len() - self.0.len()];
        if kind != Kind::Delete as u8 {
            self.list(|it| Some((it.small_number()?, it.value()?)))?;
        }
        Some(row)
    }

    /// Takes a row, whose cells are those with a value: the others of `blank` stay.
    fn row(&mut self, columns: &[u32], blank: &[(String, Value)]) -> Option<Row> {
        let key = self.list(Reader::value)?;
        let mut cells = blank.to_vec();
        for (column, value) in self.list(|it| Some((it.small_number()?, it.value()?)))? {
            cells[columns.binary_search(&column).ok()?].1 = value;
        }
        Some(Row::new(key, cells))
    }

    /// Takes the code of rows with these columns, which are all different and rise.
    fn rows(&mut self, columns: &[u32], names: &Names) -> Option<Vec<Row>> {
        let blank = |column: &u32| Some((names.name_of(*column)?.to_string(), Value::Null));
        let blank: Vec<(String, Value)> = columns.iter().map(blank).collect::<Option<_>>()?;
        (self.byte()? == 1).then_some(())?;
        let rows = self.list(|it| it.row(columns, &blank))?;
        self.0.is_empty().then_some(rows)
    }
}

/// The rows of a code, by the numbers of the columns that were selected.
pub(crate) fn rows_of(code: &[u8], columns: &[u32], names: &Names) -> Result<Vec<Row>, Error> {
    let mut columns = columns.to_vec();
    columns.sort_unstable();
    columns.dedup();
    let unknown = || Error::Reply("rows in another code".to_string());
    Reader(code).rows(&columns, names).ok_or_else(unknown)
}

#[cfg(test)]
mod tests {
    use super::*;
    use crate::schema::Schema;

    /// The version of table t with the columns a, b and c.
    fn names() -> Names {
        Names::new(1, Schema::of(&["t"], &["a", "b", "c"]))
    }

    /// The row 7, with true in b, a text with zeros in c and nothing in a; and the row "" with
    /// nothing.
    const CODE: &[u8] = b"\x01\0\0\0\0\0\0\0\x02\0\0\0\0\0\0\0\x01\x02\x80\0\0\0\0\0\0\x07\
        \0\0\0\0\0\0\0\x02\0\0\0\x02\x04\x01\0\0\0\x03\x03\0\xffa\0\xff\0\x01\
        \0\0\0\0\0\0\0\x01\x03\0\x01\0\0\0\0\0\0\0\0";

    #[test]
    fn rows_are_read_with_every_kind_of_value() {
        let rows = rows_of(CODE, &[3, 1, 2, 3], &names()).unwrap();
        let cells =
            |values: [Value; 3]| ["a", "b", "c"].map(str::to_string).into_iter().zip(values);
        let first = cells([Value::Null, true.into(), "\0a\0".into()]).collect();
        let second = cells([Value::Null, Value::Null, Value::Null]).collect();
        assert_eq!(
            rows,
            [
                Row::new(vec![7.into()], first),
                Row::new(vec!["".into()], second)
            ]
        );
        assert_eq!(
            rows_of(b"\x01\0\0\0\0\0\0\0\0", &[], &names()),
            Ok(Vec::new())
        );
    }

    #[test]
    fn other_bytes_are_no_rows() {
        let longer = [CODE, b"\0"].concat();
        let other = [b"\x02", &CODE[1..]].concat();
        let codes = (0..CODE.len()).map(|end| &CODE[..end]);
        for code in codes.chain([&longer[..], &other[..]]) {
            assert!(rows_of(code, &[1, 2, 3], &names()).is_err(), "{code:?}");
        }
        assert!(rows_of(CODE, &[1, 2], &names()).is_err());
    }
}
