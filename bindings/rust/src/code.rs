//! Tables, queries, changes and values as bytes, as `crates/entry_code` describes them.

use crate::pages::KeyRange;
use crate::plan::{SchemaChange, State};
use crate::query::Condition;
use crate::table::{Table, Type};
use crate::value::{Key, Value};

/// The first byte of a code.
const VERSION: u8 = 1;
/// The room that a code begins with: that of an operation or two.
const ROOM: usize = 128;

/// Writes codes to bytes.
#[derive(Debug, Clone, Default, PartialEq, Eq)]
pub(crate) struct Code(pub(crate) Vec<u8>);

impl Code {
    /// The start of a code: its version.
    pub(crate) fn new() -> Code {
        Code::with_room(ROOM)
    }

    /// The same, with room for so many bytes.
    pub(crate) fn with_room(bytes: usize) -> Code {
        let mut code = Vec::with_capacity(bytes);
        code.push(VERSION);
        Code(code)
    }

    pub(crate) fn as_bytes(&self) -> &[u8] {
        &self.0
    }

    pub(crate) fn byte(&mut self, byte: u8) {
        self.0.push(byte);
    }

    fn number(&mut self, number: u64) {
        self.0.extend_from_slice(&number.to_be_bytes());
    }

    pub(crate) fn small_number(&mut self, number: u32) {
        self.0.extend_from_slice(&number.to_be_bytes());
    }

    pub(crate) fn count(&mut self, items: usize) {
        self.number(items as u64);
    }

    /// Bytes, after how many they are.
    pub(crate) fn data(&mut self, data: &[u8]) {
        self.count(data.len());
        self.0.extend_from_slice(data);
    }

    fn name(&mut self, name: &str) {
        self.data(name.as_bytes());
    }

    pub(crate) fn value(&mut self, value: &Value) {
        match value {
            Value::Null => self.byte(1),
            Value::Int(number) => {
                self.byte(2);
                self.number(by_order(*number));
            }
            Value::Text(text) => {
                self.byte(3);
                self.text(text);
            }
            Value::Bool(is_so) => self.0.extend_from_slice(&[4, u8::from(*is_so)]),
        }
    }

    /// The bytes of a text, a zero among them followed by 255, and then its end.
    fn text(&mut self, text: &str) {
        let text = text.as_bytes();
        self.0.reserve(text.len() + 2);
        // most texts have no zero, and a search for one is fast
        match text.contains(&0) {
            false => self.0.extend_from_slice(text),
            true => text.iter().for_each(|byte| match byte {
                0 => self.0.extend_from_slice(&[0, 255]),
                _ => self.0.push(*byte),
            }),
        }
        self.0.extend_from_slice(&[0, 1]);
    }

    fn key(&mut self, key: &Key) {
        self.count(key.0.len());
        key.0.iter().for_each(|value| self.value(value));
    }

    pub(crate) fn row(&mut self, table: u32, key: &Key) {
        self.small_number(table);
        self.key(key);
    }

    /// A bound, or that there is none.
    fn bound(&mut self, bound: Option<&Value>) {
        self.byte(u8::from(bound.is_some()));
        bound.into_iter().for_each(|value| self.value(value));
    }

    fn condition(&mut self, condition: &Condition, number: impl Fn(&str) -> u32) {
        match condition {
            Condition::Key(key) => {
                self.byte(0);
                self.key(key);
            }
            Condition::Equal(column, value) => {
                self.byte(1);
                self.small_number(number(column));
                self.value(value);
            }
            Condition::Between(column, low, high) => {
                self.byte(2);
                self.small_number(number(column));
                self.bound(low.as_ref());
                self.bound(high.as_ref());
            }
        }
    }

    fn query(
        &mut self,
        table: u32,
        columns: &[u32],
        conditions: &[Condition],
        number: impl Fn(&str) -> u32,
    ) {
        self.small_number(table);
        self.count(columns.len());
        columns.iter().for_each(|column| self.small_number(*column));
        self.count(conditions.len());
        for condition in conditions {
            self.condition(condition, &number);
        }
    }

    fn columns(&mut self, columns: &[(String, Type)]) {
        self.count(columns.len());
        for (name, kind) in columns {
            self.name(name);
            self.kind(*kind);
        }
    }

    fn kind(&mut self, kind: Type) {
        self.byte(match kind {
            Type::Int => 0,
            Type::Text => 1,
            Type::Bool => 2,
        });
    }

    /// A change: which it is, its table and its name, and then what only it has.
    fn change(&mut self, change: &SchemaChange, table: impl Fn(&str) -> u32) {
        let (variant, of, name) = change.parts();
        self.byte(variant);
        self.small_number(table(of));
        self.name(name);
        match change {
            SchemaChange::AddIndex { columns, .. } => {
                self.count(columns.len());
                columns.iter().for_each(|column| self.name(column));
            }
            SchemaChange::AddColumn { kind, default, .. } => {
                self.byte(1 + u8::from(default.is_some()));
                self.kind(*kind);
                default.iter().for_each(|value| self.value(value));
            }
            _ => {}
        }
    }

    fn table(&mut self, table: &Table) {
        self.name(&table.name);
        self.columns(&table.key);
        self.columns(&table.columns);
        self.count(table.indexes.len());
        for (name, columns) in &table.indexes {
            self.name(name);
            self.count(columns.len());
            columns.iter().for_each(|column| self.name(column));
        }
    }
}

/// Unsigned numbers in the order of the signed ones.
fn by_order(number: i64) -> u64 {
    (number as u64) ^ (1 << 63)
}

/// The code of an opening: a lease length, and tables.
pub(crate) fn opening(lease_length: u64, tables: &[Table]) -> Code {
    let mut code = Code::new();
    code.number(lease_length);
    code.count(tables.len());
    tables.iter().for_each(|table| code.table(table));
    code
}

/// The code of a query of a table: the columns that it selects, and what a row meets.
pub(crate) fn query(
    table: u32,
    columns: &[u32],
    conditions: &[Condition],
    number: impl Fn(&str) -> u32,
) -> Code {
    let mut code = Code::new();
    code.query(table, columns, conditions, number);
    code
}

/// The code of a request for a page: its range and its limit, and then the query.
pub(crate) fn page(
    range: &KeyRange,
    limit: u32,
    table: u32,
    columns: &[u32],
    conditions: &[Condition],
    number: impl Fn(&str) -> u32,
) -> Code {
    let mut code = Code::new();
    for key in [&range.after, &range.before] {
        code.byte(u8::from(key.is_some()));
        key.iter().for_each(|key| code.key(key));
    }
    code.small_number(limit);
    code.query(table, columns, conditions, number);
    code
}

/// The code of a batch of changes.
pub(crate) fn changes(changes: &[SchemaChange], table: impl Fn(&str) -> u32) -> Code {
    let mut code = Code::new();
    code.count(changes.len());
    for change in changes {
        code.change(change, &table);
    }
    code
}

/// The code of a step in which these elements go on, each to a state.
pub(crate) fn step(moves: &[(u32, State)]) -> Code {
    let mut code = Code::new();
    code.count(moves.len());
    for (element, state) in moves {
        code.byte(1);
        code.small_number(*element);
        code.byte(*state as u8);
    }
    code
}

#[cfg(test)]
mod tests {
    use super::*;

    fn coded(value: Value) -> Vec<u8> {
        let mut code = Code::default();
        code.value(&value);
        code.0
    }

    /// Values as `crates/keycode` has them.
    #[test]
    fn values() {
        assert_eq!(coded(Value::Null), b"\x01");
        assert_eq!(coded(5.into()), b"\x02\x80\0\0\0\0\0\0\x05");
        assert_eq!(coded((-1).into()), b"\x02\x7f\xff\xff\xff\xff\xff\xff\xff");
        assert_eq!(coded(i64::MIN.into()), b"\x02\0\0\0\0\0\0\0\0");
        assert_eq!(
            coded(i64::MAX.into()),
            [2, 255, 255, 255, 255, 255, 255, 255, 255]
        );
        assert_eq!(coded("".into()), b"\x03\0\x01");
        assert_eq!(coded("a".into()), b"\x03a\0\x01");
        assert_eq!(coded("\0a\0".into()), b"\x03\0\xffa\0\xff\0\x01");
        assert_eq!(coded(false.into()), b"\x04\0");
        assert_eq!(coded(true.into()), b"\x04\x01");
    }

    /// The opening of `crates/entry_code_tests`: leases of 10, and t (id int key, a bool) with the
    /// index i on a.
    #[test]
    fn an_opening() {
        let table = Table::new("t")
            .key("id", Type::Int)
            .column("a", Type::Bool)
            .index("i", ["a"]);
        let wanted =
            b"\x01\0\0\0\0\0\0\0\x0a\0\0\0\0\0\0\0\x01\0\0\0\0\0\0\0\x01t\0\0\0\0\0\0\0\x01\
            \0\0\0\0\0\0\0\x02id\0\0\0\0\0\0\0\0\x01\0\0\0\0\0\0\0\x01a\x02\0\0\0\0\0\0\0\x01\
            \0\0\0\0\0\0\0\x01i\0\0\0\0\0\0\0\x01\0\0\0\0\0\0\0\x01a";
        assert_eq!(opening(10, &[table]).as_bytes(), wanted);
    }

    /// The query of `crates/world_tests`: columns 2 and 3 of table 1, of row 7, if it has nothing
    /// in 2 and a text from "a" on in 3.
    #[test]
    fn a_query() {
        let number = |column: &str| if column == "b" { 2 } else { 3 };
        let conditions = [
            Condition::Key(7.into()),
            Condition::Equal("b".to_string(), Value::Null),
            Condition::Between("c".to_string(), Some("a".into()), None),
        ];
        let wanted = b"\x01\0\0\0\x01\0\0\0\0\0\0\0\x02\0\0\0\x02\0\0\0\x03\0\0\0\0\0\0\0\x03\
            \0\0\0\0\0\0\0\0\x01\x02\x80\0\0\0\0\0\0\x07\x01\0\0\0\x02\x01\x02\0\0\0\x03\x01\x03a\0\x01\0";
        assert_eq!(query(1, &[2, 3], &conditions, number).as_bytes(), wanted);
    }

    /// A batch with each kind of change, in table 1, by hand.
    #[test]
    fn a_batch_of_changes() {
        let batch = [
            SchemaChange::add_index("t", "i", ["a", "b"]),
            SchemaChange::drop_index("t", "j"),
            SchemaChange::add_column("t", "c", Type::Text),
            SchemaChange::add_column_with_default("t", "d", Type::Bool, true),
            SchemaChange::drop_column("t", "e"),
            SchemaChange::abandon("t", "f"),
        ];
        let wanted: [&[u8]; 7] = [
            b"\x01\0\0\0\0\0\0\0\x06",
            b"\0\0\0\0\x01\0\0\0\0\0\0\0\x01i\0\0\0\0\0\0\0\x02\0\0\0\0\0\0\0\x01a\0\0\0\0\0\0\0\x01b",
            b"\x01\0\0\0\x01\0\0\0\0\0\0\0\x01j",
            b"\x02\0\0\0\x01\0\0\0\0\0\0\0\x01c\x01\x01",
            b"\x02\0\0\0\x01\0\0\0\0\0\0\0\x01d\x02\x02\x04\x01",
            b"\x03\0\0\0\x01\0\0\0\0\0\0\0\x01e",
            b"\x04\0\0\0\x01\0\0\0\0\0\0\0\x01f",
        ];
        let table = |name: &str| u32::from(name == "t");
        assert_eq!(changes(&batch, table).as_bytes(), wanted.concat());
        assert_eq!(changes(&[], table).as_bytes(), b"\x01\0\0\0\0\0\0\0\0");
    }

    /// A step in which element 3 goes public and 4 is gone, by hand.
    #[test]
    fn a_step() {
        let wanted = b"\x01\0\0\0\0\0\0\0\x02\x01\0\0\0\x03\x03\x01\0\0\0\x04\0";
        let moves = [(3, State::Public), (4, State::Absent)];
        assert_eq!(step(&moves).as_bytes(), wanted);
    }
}
