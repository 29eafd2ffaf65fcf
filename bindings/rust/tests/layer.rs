//! Transactions and queries over a store of one's own: refusals, and versions that are closed.

mod layer_shared;
#[allow(dead_code)] // stores of the engine are others
mod shared;

use cagzhomul::layer::{Draft, Layer, MemoryStore, Store, StoreError};
use cagzhomul::Type::Int;
use cagzhomul::{Error, Key, Query, SchemaChange, Table, Value};
use layer_shared::How::{Gone, Late, Lost};
use layer_shared::{damage_is_counted, number, opened, row, sound, tables, Dice, Scripted, TOWNS};
use shared::plain;
use std::cell::Cell;

type Db = Layer<MemoryStore>;

fn not_public(column: &str) -> Error {
    Error::NotPublic {
        column: Some(column.to_string()),
        is_key: column == "id",
    }
}

fn add_index(table: &str, name: &str, column: &str) -> [SchemaChange; 1] {
    [SchemaChange::add_index(table, name, [column])]
}

type Call<'a> = &'a dyn Fn(&Db) -> Result<(), Error>;

/// Each call is refused so, by a database with the people 0 to 4, and changes nothing.
fn refuse<const N: usize>(cases: [(Call<'_>, Error); N]) {
    let db = opened(5, MemoryStore::new());
    for (at, (call, due)) in cases.into_iter().enumerate() {
        assert_eq!(call(&db).map_err(plain), Err(due), "case {at}");
    }
    assert_eq!(db.query(&Query::of("people")).unwrap().len(), 5);
    sound(&db);
}

#[test]
fn refusals_of_operations() {
    let long = "x".repeat(1025);
    let update = |db: &Db, column: &str| db.update("people", 3, [(column, &long)]).map(drop);
    let second = |db: &Db| {
        let mut txn = db.txn();
        txn.update("people", 3, [("age", 1)]).delete("people", 9);
        txn.commit().map(drop)
    };
    let insert = |db: &Db, table: &str, key: Key| db.insert(table, key, ()).map(drop);
    let (operation, wrong) = (0, Error::WrongType(None));
    refuse([
        (
            &|db| insert(db, "people", 3.into()),
            Error::Duplicate { operation },
        ),
        (
            &|db| db.delete("people", 9).map(drop),
            Error::NoRow { operation },
        ),
        (&second, Error::NoRow { operation: 1 }),
        (&|db| insert(db, "nobody", 3.into()), Error::NoTable),
        (&|db| insert(db, "people", "a".into()), wrong.clone()),
        (&|db| insert(db, "people", (1, 2).into()), wrong.clone()),
        (&|db| update(db, "town"), wrong),
        (
            &|db| db.update("people", 3, [("nothing", 1)]).map(drop),
            not_public("nothing"),
        ),
    ]);
}

#[test]
fn refusals_of_transactions() {
    let long = "x".repeat(1025);
    let get = |db: &Db, table: &str, key: Key| db.txn().get(table, key).map(drop);
    let many = |db: &Db| {
        let mut txn = db.txn();
        for id in 100..165 {
            txn.insert("people", id, ());
        }
        txn.commit().map(drop)
    };
    let ended = |db: &Db| {
        let mut txn = db.txn();
        txn.update("people", 1, [("age", 3)]).commit()?;
        assert_eq!(txn.commit(), Err(Error::WrongStage));
        txn.get("people", 1).map(drop)
    };
    refuse([
        (&|db| get(db, "nobody", 1.into()), Error::NoTable),
        (&|db| get(db, "people", "a".into()), Error::WrongType(None)),
        (
            &|db| get(db, "people", (&long).into()),
            Error::WrongType(None),
        ),
        (&ended, Error::WrongStage),
        (&many, Error::TooManyOps),
    ]);
}

#[test]
fn refusals_of_queries_and_changes() {
    let query = |db: &Db, query: Query| db.query(&query).map(drop);
    let people = || Query::of("people");
    let add = |db: &Db, name: &str, column: &str| db.complete(&add_index("people", name, column));
    let abandon = |db: &Db| db.complete(&[SchemaChange::abandon("people", "town")]);
    let other = |db: &Db| Layer::open(db.store(), [Table::new("people").key("id", Int)]).map(drop);
    refuse([
        (&|db| query(db, Query::of("nobody")), Error::NoTable),
        (&|db| query(db, people().columns(["no"])), not_public("no")),
        (
            &|db| query(db, people().equal("age", "a")),
            Error::WrongType(None),
        ),
        (&|db| add(db, "town", "age"), Error::NameTaken),
        (&|db| add(db, "i", "nothing"), Error::Unknown),
        (&abandon, Error::Unknown),
        (&other, Error::BadTable(None)),
    ]);
    let nameless = Layer::open(MemoryStore::new(), [Table::new("").key("id", Int)]);
    assert_eq!(nameless.err().map(plain), Some(Error::BadTable(None)));
    assert_eq!(Layer::new(MemoryStore::new()).err(), Some(Error::NotOpened));
}

#[test]
fn a_query_reads_no_more_pairs_than_its_limit() {
    let db = opened(5, MemoryStore::new());
    let limited = Layer::new(db.store()).unwrap().limit(3);
    let refused = limited.query(&Query::of("people"));
    assert_eq!(refused, Err(Error::TooManyPairs { limit: 3 }));
    assert_eq!(limited.query(&Query::of("people").key(1)).unwrap().len(), 1);
}

#[test]
fn opening() {
    let store = MemoryStore::new();
    let db = opened(3, &store);
    db.complete(&[
        SchemaChange::add_index("people", "by_town", ["town"]),
        SchemaChange::drop_column("people", "age"),
    ])
    .unwrap();
    // version 1 is long gone, and is not put again
    let again = Layer::open(&store, tables()).unwrap();
    assert_eq!(again.query(&Query::of("people")).unwrap().len(), 3);
    for (script, late) in [
        (vec![Lost], 0),
        (vec![Gone, Gone], 0),
        (vec![Late, Lost], 1),
    ] {
        let store = MemoryStore::new();
        let db = Layer::open(Scripted::new(&store, script.clone()), tables()).unwrap();
        db.insert("people", 1, ()).unwrap();
        db.store().late_are_refused();
        assert_eq!(db.store().late.borrow().len(), late, "{script:?}");
        assert_eq!(
            opened(0, &store).query(&Query::of("people")).unwrap().len(),
            1
        );
    }
    let filled = MemoryStore::new();
    let write = [(b"other".to_vec(), Some(b"1".to_vec()))].into();
    let draft = Draft {
        write,
        ..Draft::default()
    };
    filled.apply(&draft).unwrap();
    let refused = Layer::open(&filled, tables()).err();
    assert!(
        matches!(refused, Some(Error::Store(StoreError::BadAnswer(_)))),
        "{refused:?}"
    );
}

#[test]
fn rows_that_are_got_are_pinned() {
    let store = MemoryStore::new();
    let (db, other) = (opened(5, &store), Layer::new(&store).unwrap());
    for is_written in [false, true] {
        for key in [1, 70, 2] {
            let mut txn = db.txn();
            let got = txn.get("people", key).unwrap();
            assert_eq!(got, row(&db, key));
            match key {
                1 => other.update("people", 1, [("age", 8 + i64::from(is_written))]),
                70 => other.insert("people", 70, ()),
                _ => other.delete("people", 2),
            }
            .unwrap();
            assert_eq!(txn.get("people", key), Ok(got));
            txn.update("people", 3, [("age", 5)]);
            if is_written && key == 1 {
                txn.update("people", 1, [("age", 6)]);
            }
            assert_eq!(txn.commit(), Err(Error::Conflict { row: None }), "{key}");
        }
        other.delete("people", 70).unwrap();
        other.insert("people", 2, ()).unwrap();
    }
    db.modify("people", 81, |row| row.is_none().then_some([("age", 1)]))
        .unwrap();
    db.modify("people", 81, |row| row.map(|_| [("age", 2)]))
        .unwrap();
    db.modify("people", 81, |_| None::<()>).unwrap();
    assert_eq!(number(row(&db, 81).as_ref(), "age"), 2);
    sound(&db);
}

#[test]
fn a_stale_server_reads_the_newest_version() {
    let store = MemoryStore::new();
    let db = opened(5, &store);
    let [behind, reader, getter] = [(); 3].map(|()| Layer::new(&store).unwrap());
    let mut txn = getter.txn();
    assert!(txn.get("people", 1).unwrap().is_some());
    db.complete(&[
        SchemaChange::add_column_with_default("people", "rank", Int, 7),
        SchemaChange::drop_column("people", "town"),
    ])
    .unwrap();
    assert_eq!(txn.get("people", 2), Err(Error::Conflict { row: None }));
    assert_eq!(
        txn.update("people", 3, [("age", 1)]).commit(),
        Err(Error::Conflict { row: None })
    );
    behind.update("people", 1, [("rank", 8)]).unwrap();
    let found = reader.query(&Query::of("people").key(1)).unwrap();
    let cells = [
        ("age".to_string(), Value::Int(1)),
        ("rank".to_string(), Value::Int(8)),
    ];
    assert_eq!(found[0].cells(), cells);
    let ranks = reader
        .query(&Query::of("people").columns(["rank"]).key(2))
        .unwrap();
    assert_eq!(number(ranks.first(), "rank"), 7);
    let stale = Layer::new(&store).unwrap();
    db.complete(&[SchemaChange::drop_column("people", "rank")])
        .unwrap();
    assert_eq!(
        stale.update("people", 1, [("rank", 8)]),
        Err(not_public("rank"))
    );
    sound(&db);
}

#[test]
fn queries_answer_as_a_look_at_all_rows_does() {
    let (db, mut dice) = (opened(200, MemoryStore::new()), Dice(7));
    let rows = db.query(&Query::of("people")).unwrap();
    let indexes = [
        None,
        Some(("by_town", vec!["town"])),
        Some(("by_age", vec!["age", "town"])),
    ];
    for index in indexes {
        if let Some((name, columns)) = index {
            db.complete(&[SchemaChange::add_index("people", name, columns)])
                .unwrap();
        }
        for _ in 0..40 {
            let [low, high, id] = [8, 8, 220].map(|below| dice.below(below) as i64);
            let town = Value::from(TOWNS[dice.below(4)]);
            let of_town = Query::of("people").equal("town", town.clone());
            let is_town = |it: usize| rows[it].get("town") == Some(&town);
            let age = |it: usize| number(Some(&rows[it]), "age");
            type Case<'a> = (Query, &'a dyn Fn(usize) -> bool);
            let cases: [Case<'_>; 4] = [
                (of_town.clone(), &is_town),
                (of_town.equal("age", low), &|it| {
                    is_town(it) && age(it) == low
                }),
                (
                    Query::of("people").between("age", Some(low), Some(high)),
                    &|it| (low..=high).contains(&age(it)),
                ),
                (Query::of("people").key(id), &|it| {
                    rows[it].key() == [id.into()]
                }),
            ];
            for (query, is_met) in cases {
                let due = (0..rows.len()).filter(|it| is_met(*it));
                let due: Vec<_> = due.map(|it| rows[it].clone()).collect();
                assert_eq!(db.query(&query).unwrap(), due, "{query:?}");
            }
        }
    }
}

/// Another writes between a query's reads: the answer is that of a moment.
#[test]
fn a_query_is_of_one_moment() {
    let store = MemoryStore::new();
    let db = opened(20, &store);
    db.complete(&add_index("people", "by_town", "town"))
        .unwrap();
    let left = Cell::new(5);
    let mut between = Scripted::new(&store, []);
    between.before_read = Box::new(|| {
        if left.get() > 0 {
            left.set(left.get() - 1);
            let bonn = |_: Option<&_>| Some([("town", "Bonn")]);
            db.modify("people", 4 * left.get(), bonn).unwrap();
        }
    });
    let reader = Layer::new(between).unwrap();
    let of_bonn = Query::of("people").equal("town", "Bonn");
    assert_eq!(reader.query(&of_bonn).unwrap().len(), 10);
    assert_eq!(left.get(), 0);
}

#[test]
fn checks_by_pages() {
    damage_is_counted(MemoryStore::new());
    let db = opened(3, MemoryStore::new()).limit(1);
    let limit = 1;
    assert_eq!(db.check_by(2), Err(Error::TooManyPairs { limit }));
}
