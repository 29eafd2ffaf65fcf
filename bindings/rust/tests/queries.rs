//! Typed queries of stores and snapshots over the real library. All rows are worked out by hand.

mod shared;

use cagzhomul::Type::{Bool, Int, Text};
use cagzhomul::{Cells, Db, Error, Lease, Query, Row, Snapshot, Table, Value};
use shared::{drive, people, plain};
use std::cell::Cell;
use std::thread;

/// The keys of the rows that the query finds, which a snapshot of now finds too.
fn keys(lease: &Lease<'_>, query: Query) -> Result<Vec<i64>, Error> {
    let rows = lease.find(5, &query)?;
    assert_eq!(lease.snapshot(5)?.query(&query)?, rows, "{query:?}");
    let key = |row: &Row| match row.key() {
        [Value::Int(key)] => *key,
        other => panic!("{other:?}"),
    };
    Ok(rows.iter().map(key).collect())
}

#[test]
fn rows_are_found_by_each_path() -> Result<(), Error> {
    let table = Table::new("t").key("id", Int).column("n", Int);
    let table = table.column("s", Text).column("f", Bool);
    let other = Table::new("other").key("id", Int).column("c", Int);
    let db = Db::open([other, table.index("by_s", ["s"])])?;
    let lease = db.lease(5)?;
    let cells =
        |n: i64, s: &str, f: bool| [("n", Value::from(n)), ("s", s.into()), ("f", f.into())];
    let insert = |key: i64, cells: Cells<'static>| lease.txn().insert("t", key, cells).commit(5);
    insert(1, cells(i64::MIN, "Ulm", true).into())?;
    insert(2, ().into())?;
    insert(3, cells(i64::MAX, "\0\u{fc}", false).into())?;
    let t = || Query::of("t");
    let none = None::<Value>;
    for (query, found) in [
        (t(), &[1, 2, 3][..]),
        (t().key(2), &[2]),
        (t().key(4), &[]),
        (t().equal("s", "Ulm"), &[1]),
        (t().equal("s", Value::Null), &[2]),
        (t().equal("s", "Bonn"), &[]),
        (t().between("s", Some("A"), None), &[1]),
        (t().between("s", None, Some("A")), &[3]),
        (t().between("s", none.clone(), none.clone()), &[1, 3]),
        (t().between("s", Some("V"), Some("U")), &[]),
        (t().equal("f", false), &[3]),
        (t().between("n", Some(0), Some(i64::MAX)), &[3]),
        (
            t().between("n", Some(0), None).between("n", None, Some(5)),
            &[],
        ),
        (t().key(1).equal("s", "Ulm").equal("f", true), &[1]),
        (t().key(1).equal("s", "Ulm").equal("f", false), &[]),
        (Query::of("other"), &[]),
    ] {
        assert_eq!(keys(&lease, query.clone())?, found, "{query:?}");
    }
    Ok(())
}

#[test]
fn rows_have_the_columns_that_are_selected() -> Result<(), Error> {
    let table = Table::new("t").key("id", Int).column("n", Int);
    let db = Db::open([table.column("s", Text).index("by_s", ["s"])])?;
    let lease = db.lease(5)?;
    lease.txn().insert("t", 1, [("s", "Ulm")]).commit(5)?;
    let cell = |name: &str, value: Value| (name.to_string(), value);
    let (n, s) = (cell("n", Value::Null), cell("s", "Ulm".into()));
    for (query, cells) in [
        (Query::of("t"), vec![n.clone(), s.clone()]),
        (
            Query::of("t").columns(["s", "n", "s"]),
            vec![n.clone(), s.clone()],
        ),
        (Query::of("t").columns(["s"]), vec![s.clone()]),
        (Query::of("t").columns(["s"]).columns(["n"]), vec![n, s]),
        (Query::of("t").columns([] as [&str; 0]), vec![]),
    ] {
        let rows = lease.find(5, &query)?;
        assert_eq!((rows.len(), rows[0].cells()), (1, &cells[..]), "{query:?}");
    }
    Ok(())
}

#[test]
fn queries_are_refused_for_their_names_and_values() -> Result<(), Error> {
    let db = people();
    let lease = db.lease(5)?;
    let snapshot = lease.snapshot(5)?;
    let (q, long) = (|| Query::of("people"), "x".repeat(1025));
    let public = |name: &str| Error::NotPublic {
        column: Some(name.to_string()),
        is_key: name == "id",
    };
    for (query, error) in [
        (Query::of("nobody").columns(["x"]).key("1"), Error::NoTable),
        (q().columns(["town", "x", "y"]), public("x")),
        (q().columns(["id"]), public("id")),
        (q().key(1).equal("id", 1).equal("town", 5), public("id")),
        (q().between("age", None, Some(1)), public("age")),
        (q().key("1").equal("x", 1), Error::WrongType(None)),
        (q().key((1, 2)), Error::WrongType(None)),
        (q().key(Value::Null), Error::WrongType(None)),
        (q().equal("town", 5), Error::WrongType(None)),
        (
            q().between("town", Some(false), None),
            Error::WrongType(None),
        ),
        (
            q().between("town", Some(Value::Null), None),
            Error::WrongType(None),
        ),
        (
            Query::of("nobody").equal("x", &long),
            Error::WrongType(None),
        ),
        (
            q().between("town", None, Some(&long)),
            Error::WrongType(None),
        ),
    ] {
        let found = snapshot.query(&query).map_err(plain);
        assert_eq!(found, Err(error.clone()), "{query:?}");
        let found = lease.find(5, &query).map_err(plain);
        assert_eq!(found, Err(error), "{query:?}");
    }
    assert_eq!(
        lease.find(5, &q().equal("town", &long[1..])),
        Ok(Vec::new())
    );
    assert_eq!(
        lease.find(15, &Query::of("nobody")),
        Err(Error::LeaseEnded { until: 15, now: 15 })
    );
    assert_eq!(lease.find((1 << 62) + 1, &q()), Err(Error::MomentTooLarge));
    assert_eq!(db.line("log")?, "ok log 1\n");
    Ok(())
}

#[test]
fn columns_are_those_of_the_version_of_the_lease() -> Result<(), Error> {
    let (db, now) = (people(), Cell::new(5));
    let first = db.lease(5)?;
    first
        .txn()
        .insert("people", 1, [("town", "Ulm")])
        .commit(5)?;
    let old = first.snapshot(5)?;
    drive(&db, "add column age int default 7 on people", &now)?;
    drive(&db, "add index by_age on people (age)", &now)?;
    let new = db.lease(now.get())?.snapshot(now.get())?;
    drive(&db, "drop column town on people", &now)?;
    let last = db.lease(now.get())?.snapshot(now.get())?;
    let cells = |snapshot: &Snapshot| -> Result<String, Error> {
        let rows = snapshot.query(&Query::of("people"))?;
        let cells = rows.iter().flat_map(Row::cells);
        Ok(cells
            .map(|(name, value)| format!("{name} = {value};"))
            .collect())
    };
    for _ in 0..2 {
        assert_eq!(cells(&old)?, "town = 'Ulm';");
        assert_eq!(cells(&new)?, "town = 'Ulm';age = 7;");
        assert_eq!(cells(&last)?, "age = 7;");
    }
    for (snapshot, name) in [(&old, "age"), (&new, "by_age"), (&last, "town")] {
        let refused = Err(Error::NotPublic {
            column: Some(name.to_string()),
            is_key: false,
        });
        let named = Query::of("people").columns([name]);
        assert_eq!(snapshot.query(&named), refused);
        let met = Query::of("people").equal(name, Value::Null);
        assert_eq!(snapshot.query(&met), refused);
    }
    let wanted = Query::of("people").columns(["town"]).equal("age", 7);
    assert_eq!(new.query(&wanted)?[0].get("town"), Some(&"Ulm".into()));
    Ok(())
}

#[test]
fn a_snapshot_is_queried_while_threads_write() -> Result<(), Error> {
    let db = people();
    let lease = db.lease(5)?;
    let town = "\u{fc}\0".repeat(100);
    let insert = |id: i64, town: &str| lease.txn().insert("people", id, [("town", town)]).commit(5);
    (0..100).try_for_each(|id| insert(id, &town).map(drop))?;
    let snapshot = lease.snapshot(5)?;
    let queries = [
        Query::of("people"),
        Query::of("people").equal("town", &town),
        Query::of("people").key(7),
    ];
    let ask = || -> Result<Vec<Vec<Row>>, Error> {
        queries.iter().map(|query| snapshot.query(query)).collect()
    };
    let before = ask()?;
    assert_eq!(
        before.iter().map(Vec::len).collect::<Vec<_>>(),
        [100, 100, 1]
    );
    assert!(before[0]
        .iter()
        .all(|row| row.get("town") == Some(&town.as_str().into())));
    let write = |from: i64| {
        (from..from + 25).try_for_each(|id| {
            insert(id + 1000, "Ulm")?;
            lease.txn().delete("people", id).commit(5).map(drop)
        })
    };
    thread::scope(|scope| {
        let writers = [0, 25, 50, 75].map(|from| scope.spawn(move || write(from)));
        while !writers.iter().all(|writer| writer.is_finished()) {
            assert_eq!(ask()?, before);
        }
        writers
            .into_iter()
            .try_for_each(|writer| writer.join().unwrap())
    })?;
    assert_eq!(ask()?, before);
    assert_eq!(lease.find(5, &queries[0])?.len(), 100);
    assert_eq!(lease.find(5, &queries[1])?, []);
    drop(lease);
    drop(db);
    assert_eq!(ask()?, before);
    Ok(())
}
