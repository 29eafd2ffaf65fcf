//! Which value an `Error::WrongType` is for.

#[allow(dead_code)] // its tables are others
mod shared;

use cagzhomul::layer::{Layer, MemoryStore};
use cagzhomul::Type::{Bool, Int, Text};
use cagzhomul::{
    Cells, Db, Error, Key, KeyRange, Query, Table, Type, Value, ValueCause, WrongValue,
};
use shared::{drive, plain};
use std::cell::Cell;

fn shops() -> [Table; 2] {
    let people = Table::new("people").key("id", Int).column("town", Text);
    let shops = Table::new("shops").key("city", Text).key("number", Int);
    [
        people.column("old", Bool).index("by_town", ["town"]),
        shops.column("open", Bool),
    ]
}

fn long() -> String {
    "x".repeat(1025)
}

/// What a `WrongValue` says: the table, the column, the cause and the text without the operation.
type Due = (
    Option<&'static str>,
    Option<&'static str>,
    ValueCause,
    &'static str,
);

fn value(value: impl Into<Value>, wanted: Type) -> ValueCause {
    let value = value.into();
    ValueCause::Value { value, wanted }
}

fn length(key: impl Into<Key>) -> ValueCause {
    ValueCause::KeyLength { key: key.into() }
}

fn too_long() -> ValueCause {
    ValueCause::TextTooLong { text: long() }
}

/// Keys that are wrong in a table: for an operation, a condition, a row that is got and a bound of a
/// page.
fn keys() -> Vec<(&'static str, Key, Due)> {
    let none: [Value; 0] = [];
    let three = || Key::from(("Ulm", 1, true));
    let (people, shops) = (Some("people"), Some("shops"));
    let is_long = "a text of 1025 bytes, and 1024 are the most";
    vec![
        (
            "people",
            none.clone().into(),
            (
                people,
                None,
                length(none),
                "people: the key () has 0 values, and the table's key has another number of columns",
            ),
        ),
        (
            "people",
            (1, "a").into(),
            (
                people,
                None,
                length((1, "a")),
                "people: the key (1, 'a') has 2 values, and the table's key has another number of columns",
            ),
        ),
        (
            "shops",
            "Ulm".into(),
            (
                shops,
                None,
                length("Ulm"),
                "shops: the key ('Ulm') has 1 value, and the table's key has another number of columns",
            ),
        ),
        (
            "shops",
            three(),
            (
                shops,
                None,
                length(three()),
                "shops: the key ('Ulm', 1, true) has 3 values, and the table's key has another number of columns",
            ),
        ),
        (
            "people",
            "1".into(),
            (
                people,
                Some("id"),
                value("1", Int),
                "people.id: '1' is a text, and the column is an int",
            ),
        ),
        (
            "people",
            Value::Null.into(),
            (
                people,
                Some("id"),
                value(Value::Null, Int),
                "people.id: null is no int",
            ),
        ),
        (
            "shops",
            (true, "1").into(),
            (
                shops,
                Some("city"),
                value(true, Text),
                "shops.city: true is a bool, and the column is a text",
            ),
        ),
        (
            "shops",
            ("Ulm", Value::Null).into(),
            (
                shops,
                Some("number"),
                value(Value::Null, Int),
                "shops.number: null is no int",
            ),
        ),
        (
            "shops",
            (1, long()).into(),
            (
                shops,
                Some("number"),
                too_long(),
                "shops.number: a text of 1025 bytes, and 1024 are the most",
            ),
        ),
        (
            "people",
            (1, long()).into(),
            (
                people,
                None,
                too_long(),
                "people: a text of 1025 bytes, and 1024 are the most",
            ),
        ),
        ("nobody", long().into(), (None, None, too_long(), is_long)),
    ]
}

/// Cells that are wrong in row 1 of people.
fn cells() -> Vec<(Cells<'static>, Due)> {
    let (people, long_text) = (Some("people"), long());
    vec![
        (
            [("town", 7)].into(),
            (
                people,
                Some("town"),
                value(7, Text),
                "people.town: 7 is an int, and the column is a text",
            ),
        ),
        (
            [("town", Value::Null), ("old", (-1).into())].into(),
            (
                people,
                Some("old"),
                value(-1, Bool),
                "people.old: -1 is an int, and the column is a bool",
            ),
        ),
        (
            // of both values of a column the wrong one, which comes before that it is named twice
            [("town", Value::from("a")), ("town", false.into())].into(),
            (
                people,
                Some("town"),
                value(false, Text),
                "people.town: false is a bool, and the column is a text",
            ),
        ),
        (
            [("old", true), ("old", true)].into(),
            (
                people,
                Some("old"),
                ValueCause::NamedTwice,
                "people.old: the column is named twice",
            ),
        ),
        (
            [("old", 7.into()), ("town", Value::from(&long_text))].into(),
            (
                people,
                Some("town"),
                too_long(),
                "people.town: a text of 1025 bytes, and 1024 are the most",
            ),
        ),
    ]
}

/// Queries that are wrong in a condition.
fn conditions() -> Vec<(Query, Due)> {
    let people = || Query::of("people");
    let town = |cause, text| (Some("people"), Some("town"), cause, text);
    vec![
        (
            people().equal("town", 7),
            town(
                value(7, Text),
                "people.town: 7 is an int, and the column is a text",
            ),
        ),
        (
            people().equal("old", Value::Null).between(
                "town",
                Some(Value::from("a")),
                Some(false.into()),
            ),
            town(
                value(false, Text),
                "people.town: false is a bool, and the column is a text",
            ),
        ),
        (
            people().between("town", Some(Value::Null), Some(7.into())),
            town(value(Value::Null, Text), "people.town: null is no text"),
        ),
        (
            people().key("1").between("town", None, Some(long())),
            town(
                too_long(),
                "people.town: a text of 1025 bytes, and 1024 are the most",
            ),
        ),
    ]
}

fn is_wrong<T>(found: Result<T, Error>, operation: Option<usize>, due: &Due) {
    let Err(Error::WrongType(Some(wrong))) = found.map(drop) else {
        panic!("nothing is wrong: {due:?}");
    };
    let WrongValue {
        table,
        column,
        cause,
        ..
    } = &*wrong;
    assert_eq!(
        (table.as_deref(), column.as_deref(), cause, wrong.operation),
        (due.0, due.1, &due.2, operation)
    );
    let text = match operation {
        Some(operation) => format!("{}: operation {operation}", due.3),
        None => due.3.to_string(),
    };
    assert_eq!(
        (wrong.to_string(), Error::WrongType(Some(wrong)).to_string()),
        (text.clone(), text)
    );
}

#[test]
fn values_of_a_transaction() -> Result<(), Error> {
    let db = Db::open(shops())?;
    let (lease, over) = (db.lease(0)?, Layer::open(MemoryStore::new(), shops())?);
    let of_keys = keys().into_iter();
    let of_keys = of_keys.map(|(table, key, due)| (table, key, Cells::default(), due));
    let of_cells = cells().into_iter();
    let of_cells = of_cells.map(|(cells, due)| ("people", Key::from(1), cells, due));
    for (table, key, cells, due) in of_keys.chain(of_cells) {
        let (key, cells) = (|| key.clone(), || cells.clone());
        let insert = || lease.txn().insert(table, key(), cells());
        is_wrong(insert().write(0), Some(0), &due);
        is_wrong(insert().commit(0), Some(0), &due);
        is_wrong(insert().prepare(), Some(0), &due);
        is_wrong(over.update(table, key(), cells()), Some(0), &due);
        // after others, and before one that is wrong, too; rows that it has got are no operations
        let mut txn = lease.txn();
        assert_eq!((txn.get("people", 3)?, txn.get("people", 4)?), (None, None));
        let txn = txn.insert("people", 2, [("town", "y".repeat(1024))]);
        let txn = txn.delete("people", 2).insert(table, key(), cells());
        is_wrong(
            txn.update("people", 7, [("town", 7)]).commit(0),
            Some(2),
            &due,
        );
        let mut txn = over.txn();
        assert_eq!((txn.get("people", 3)?, txn.get("people", 4)?), (None, None));
        txn.insert("people", 2, ()).delete("people", 2);
        txn.insert(table, key(), cells()).delete("people", "1");
        is_wrong(txn.commit(), Some(2), &due);
    }
    assert_eq!(
        (db.check()?.rows, over.query(&Query::of("people"))?),
        (0, vec![])
    );
    Ok(())
}

#[test]
fn values_of_a_query_and_keys_of_a_row_and_of_a_range() -> Result<(), Error> {
    let db = Db::open(shops())?;
    let (lease, over) = (db.lease(0)?, Layer::open(MemoryStore::new(), shops())?);
    let snapshot = lease.snapshot(0)?;
    for (table, key, due) in keys() {
        is_wrong(lease.txn().get(table, key.clone()), None, &due);
        is_wrong(over.txn().get(table, key.clone()), None, &due);
        let query = Query::of(table);
        let after = KeyRange::all().after(key.clone());
        for range in [
            after.clone().before("x"),
            KeyRange::all().before(key),
            after,
        ] {
            is_wrong(snapshot.page(&query, &range, 1), None, &due);
            is_wrong(lease.page(0, &query, &range, 1), None, &due);
        }
    }
    let of_keys = keys().into_iter();
    let of_keys = of_keys.map(|(table, key, due)| (Query::of(table).key(key), due));
    for (query, due) in of_keys.chain(conditions()) {
        is_wrong(lease.find(0, &query), None, &due);
        is_wrong(db.query(0, &query), None, &due);
        is_wrong(snapshot.query(&query), None, &due);
        is_wrong(over.query(&query), None, &due);
        // the query comes before the keys of its range
        let range = KeyRange::all().after("x");
        is_wrong(snapshot.page(&query, &range, 1), None, &due);
    }
    Ok(())
}

#[test]
fn values_in_the_version_of_a_lease() -> Result<(), Error> {
    let db = Db::open(shops())?;
    let old = db.lease(0)?;
    let snapshot = old.snapshot(0)?;
    let now = Cell::new(0);
    for change in ["add column age int on people", "drop column old on people"] {
        drive(&db, change, &now)?;
    }
    let now = now.get();
    let age = (
        Some("people"),
        Some("age"),
        value("7", Int),
        "people.age: '7' is a text, and the column is an int",
    );
    let new = db.lease(now)?;
    is_wrong(
        new.txn().insert("people", 1, [("age", "7")]).write(now),
        Some(0),
        &age,
    );
    let gone = (
        Some("people"),
        Some("old"),
        value("7", Bool),
        "people.old: '7' is a text, and the column is a bool",
    );
    is_wrong(
        snapshot.query(&Query::of("people").equal("old", "7")),
        None,
        &gone,
    );
    is_wrong(
        old.txn().insert("people", 1, [("old", "7")]).prepare(),
        Some(0),
        &gone,
    );
    Ok(())
}

#[test]
fn a_value_that_is_not_known() {
    assert_eq!(
        plain(Error::WrongType(None)).to_string(),
        "a value of another type, or a column named twice"
    );
}
