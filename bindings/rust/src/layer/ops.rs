//! The operations of a transaction: their code, and the keys that they read.

use crate::layer::codes::pair_keys;
use crate::names::Names;
use crate::operations::{self, Kind, Operations};
use crate::rows::Row;
use crate::value::{Key, Value};

/// An operation. Columns are by name, as their numbers are of a version.
#[derive(Debug)]
pub(super) struct Op {
    pub(super) kind: Kind,
    pub(super) table: String,
    pub(super) key: Key,
    pub(super) cells: Vec<(String, Value)>,
}

/// A row that was got, as it was then.
pub(super) struct Got {
    pub(super) table: String,
    pub(super) key: Key,
    pub(super) row: Option<Row>,
}

/// What the code of an operation, and of a value, has besides texts, in bytes: about that, and seldom more.
const OP_ROOM: usize = 32;
const VALUE_ROOM: usize = 16;

/// About how many bytes the code of operations takes.
fn room_of(ops: &[Op]) -> usize {
    let cells = |op: &Op| {
        op.cells
            .iter()
            .map(|(_, value)| room_of_value(value))
            .sum::<usize>()
    };
    let key = |op: &Op| op.key.0.iter().map(room_of_value).sum::<usize>();
    ops.iter().map(|op| OP_ROOM + key(op) + cells(op)).sum()
}

fn room_of_value(value: &Value) -> usize {
    match value {
        Value::Text(text) => VALUE_ROOM + text.len(),
        _ => VALUE_ROOM,
    }
}

/// The code of operations in a version, and of some that change nothing on the rows that were got and
/// that they do not write.
pub(super) fn code_of(ops: &[Op], got: &[Got], names: &Names) -> Vec<u8> {
    let mut operations = Operations::with_room(room_of(ops));
    for op in ops {
        operations.push(op.kind, names.table(&op.table), &op.key);
        if op.kind != Kind::Delete {
            operations.push_cells(&op.cells, |column| names.element(&op.table, column));
        }
    }
    for got in got {
        let row = operations::row(names.table(&got.table), &got.key);
        operations.pin(&row, got.row.is_some());
    }
    operations.finish().0
}

/// The keys that they read, by rising key: for each row that it is there, and its public columns. They
/// are what the library's `reads` gives, without a call; a view with other keys would be refused.
pub(super) fn keys_of(ops: &[Op], got: &[Got], names: &Names) -> Vec<Vec<u8>> {
    let written = ops.iter().map(|it| (&it.table, &it.key));
    let rows = written.chain(got.iter().map(|it| (&it.table, &it.key)));
    let mut keys = Vec::with_capacity(4 * ops.len());
    for (table, key) in rows {
        let number = names.table(table);
        if number != 0 {
            let columns = std::iter::once(0).chain(names.public(table));
            keys.extend(pair_keys(number, key, columns));
        }
    }
    keys.sort_unstable();
    keys.dedup();
    keys
}
