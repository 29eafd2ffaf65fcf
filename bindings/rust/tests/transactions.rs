//! Transactions, queries and audits over the real library. All numbers are worked out by hand.

mod shared;

use cagzhomul::Type::{Bool, Int, Text};
use cagzhomul::{
    Cells, Check, Db, Error, Key, Lease, Prepared, Query, RowKey, Session, Snapshot, Table, Txn,
    Value,
};
use shared::{people, plain};
use std::thread;

#[test]
fn rows_of_every_type_are_written_and_found() -> Result<(), Error> {
    let table = Table::new("t")
        .key("a", Int)
        .key("b", Text)
        .key("c", Bool)
        .column("n", Int)
        .column("s", Text)
        .column("f", Bool)
        .index("by_s", ["s", "n"]);
    let db = Db::open([Table::new("other").key("id", Int), table])?;
    let lease = db.lease(0)?;
    let text = "it's\n, 'a' = \0\u{fc}";
    let cells = [
        ("f", Value::from(false)),
        ("s", text.into()),
        ("n", i64::MIN.into()),
    ];
    lease
        .txn()
        .insert("t", (1, text, true), cells.clone())
        .insert("t", (i64::MAX, "", false), [("s", Value::Null)])
        .insert("other", 1, ())
        .commit(0)?;
    let rows = lease.query(0, "select * from t")?;
    assert_eq!(rows.len(), 2);
    assert_eq!(rows[0].key(), [1.into(), text.into(), true.into()]);
    for (column, value) in &cells {
        assert_eq!(rows[0].get(column), Some(value), "{column}");
    }
    assert_eq!(rows[1].key(), [i64::MAX.into(), "".into(), false.into()]);
    assert_eq!(rows[1].get("s"), Some(&Value::Null));
    let key = format!("select n from t where key = ({}, '', false)", i64::MAX);
    assert_eq!(
        lease.query(0, &key)?[0].cells(),
        [("n".to_string(), Value::Null)]
    );
    assert_eq!(lease.query(0, "select n from t where s = 'it''s'")?, []);
    assert!(db.check()?.is_clean());
    Ok(())
}

#[test]
fn a_transaction_in_one_call_is_as_one_in_four() -> Result<(), Error> {
    let db = people();
    let lease = db.lease(5)?;
    let both = || {
        lease
            .txn()
            .insert("people", 1, [("town", "Ulm")])
            .insert("people", 2, ())
    };
    assert_eq!(both().write(5)?.place, 2);
    assert_eq!(both().write(5), Err(Error::Duplicate { operation: 0 }));
    let gone = || lease.txn().delete("people", 1).delete("people", 3);
    assert_eq!(gone().write(5), gone().commit(5));
    let named = |column| {
        lease
            .txn()
            .update("people", 1, [(column, "x".repeat(1025))])
    };
    assert_eq!(
        named("town").write(5).map_err(plain),
        Err(Error::WrongType(None))
    );
    let (column, is_key) = (Some("name".to_string()), false);
    let other = lease.txn().update("people", 1, [("name", "x")]);
    assert_eq!(other.write(5), Err(Error::NotPublic { column, is_key }));
    let wrong = lease.txn().delete("people", "1");
    assert_eq!(wrong.write(5).map_err(plain), Err(Error::WrongType(None)));
    assert_eq!(
        lease.txn().delete("nobody", 1).write(5),
        Err(Error::NoTable)
    );
    let late = || lease.txn().delete("people", 2);
    assert_eq!(
        late().write(15),
        Err(Error::LeaseEnded { until: 15, now: 15 })
    );
    assert_eq!(late().write((1 << 62) + 1), Err(Error::MomentTooLarge));
    assert_eq!(
        (db.session().log_length()?, late().write(14)?.place),
        (2, 3)
    );
    assert!(db.check()?.is_clean());
    Ok(())
}

#[test]
fn a_transaction_is_refused_for_its_names_and_values() -> Result<(), Error> {
    let db = people();
    let lease = db.lease(5)?;
    let insert = |table: &str, key: Key, cells: Cells<'static>| {
        lease.txn().insert(table, key, cells).commit(5).unwrap_err()
    };
    let public = |name: &str, is_key| Error::NotPublic {
        column: Some(name.to_string()),
        is_key,
    };
    let town = |value: Value| Cells::from([("town", value)]);
    assert_eq!(insert("nobody", 1.into(), town(1.into())), Error::NoTable);
    assert_eq!(
        insert("people", 1.into(), [("id", 1)].into()),
        public("id", true)
    );
    // the first such name is reported
    let (town_first, x_first) = ([("town", 1), ("id", 1)], [("x", 1), ("id", 1)]);
    assert_eq!(
        insert("people", 1.into(), town_first.into()),
        public("id", true)
    );
    assert_eq!(
        insert("people", 1.into(), x_first.into()),
        public("x", false)
    );
    let key = lease.txn().update("people", 1, [("id", 1)]).write(5);
    assert_eq!(key, Err(public("id", true)));
    for (key, cells) in [
        (1.into(), town(1.into())),
        (1.into(), town("x".repeat(1025).into())),
        (1.into(), [("town", "a"), ("town", "b")].into()),
        ("1".into(), ().into()),
        ((1, 2).into(), ().into()),
        (Value::Null.into(), ().into()),
    ] {
        assert_eq!(plain(insert("people", key, cells)), Error::WrongType(None));
    }
    assert_eq!(db.line("log")?, "ok log 1\n");
    Ok(())
}

#[test]
fn the_first_faulty_operation_decides() -> Result<(), Error> {
    let db = people();
    let lease = db.lease(5)?;
    let (column, is_key) = (Some("y".to_string()), false);
    let wrong = || lease.txn().update("people", 1, [("y", 1)]);
    assert_eq!(
        wrong().delete("nobody", 1).commit(5),
        Err(Error::NotPublic { column, is_key })
    );
    let wrong = || lease.txn().update("nobody", 1, [("x", 1)]);
    assert_eq!(
        wrong().update("people", 1, [("y", 1)]).commit(5),
        Err(Error::NoTable)
    );
    Ok(())
}

#[test]
fn a_transaction_is_refused_over_limits_and_out_of_time() -> Result<(), Error> {
    let db = people();
    let lease = db.lease(5)?;
    let many = |count| (0..count).fold(lease.txn(), |txn, id| txn.insert("people", id, ()));
    assert_eq!(many(65).commit(5), Err(Error::TooManyOps));
    assert_eq!(many(64).commit(5).map(|receipt| receipt.place), Ok(2));
    let long = "x".repeat(1024);
    let update = || lease.txn().update("people", 1, [("town", &long)]);
    assert_eq!(update().commit(14).map(|receipt| receipt.place), Ok(3));
    assert_eq!(
        update().commit(15),
        Err(Error::LeaseEnded { until: 15, now: 15 })
    );
    assert_eq!(update().commit((1 << 62) + 1), Err(Error::MomentTooLarge));
    assert_eq!(db.lease((1 << 62) + 1).err(), Some(Error::MomentTooLarge));
    Ok(())
}

#[test]
fn a_prepared_transaction_meets_a_conflict_or_the_end_of_its_lease() -> Result<(), Error> {
    let db = people();
    let lease = db.lease(5)?;
    lease
        .txn()
        .insert("people", 1, [("town", "Ulm")])
        .commit(5)?;
    let update = |town| lease.txn().update("people", 1, [("town", town)]);
    let (first, second, third) = (
        update("Bonn").prepare()?,
        update("Hof").prepare()?,
        update("Ulm").prepare()?,
    );
    assert_eq!(first.commit(6)?.place, 3);
    let row = Some(RowKey::new("people", 1));
    assert_eq!(second.commit(6), Err(Error::Conflict { row }));
    assert_eq!(
        third.commit(15),
        Err(Error::LeaseEnded { until: 15, now: 15 })
    );
    assert_eq!(
        lease.query(7, "select town from people")?[0].get("town"),
        Some(&"Bonn".into())
    );
    Ok(())
}

#[test]
fn a_snapshot_stays_and_is_refused_as_a_query_is() -> Result<(), Error> {
    let db = people();
    let lease = db.lease(5)?;
    lease.txn().insert("people", 1, ()).commit(5)?;
    let snapshot = lease.snapshot(6)?;
    lease.txn().delete("people", 1).commit(7)?;
    assert_eq!(
        lease.snapshot(15).err(),
        Some(Error::LeaseEnded { until: 15, now: 15 })
    );
    assert_eq!(lease.snapshot(1 << 63).err(), Some(Error::MomentTooLarge));
    drop(lease);
    drop(db);
    assert_eq!(
        snapshot.check()?,
        Check {
            rows: 1,
            missing: 0,
            extra: 0
        }
    );
    Ok(())
}

#[test]
fn queries_are_refused_as_lines_are() -> Result<(), Error> {
    let db = people();
    let lease = db.lease(5)?;
    assert_eq!(lease.query(5, "select from"), Err(Error::BadLine));
    assert_eq!(
        lease.query(5, "select town from nobody"),
        Err(Error::NoTable)
    );
    assert_eq!(
        lease
            .query(5, "select * from people where town = 5")
            .map_err(plain),
        Err(Error::WrongType(None))
    );
    assert_eq!(
        lease.query(15, "select * from people"),
        Err(Error::LeaseEnded { until: 15, now: 15 })
    );
    assert_eq!(
        lease.query(1 << 63, "select * from people"),
        Err(Error::MomentTooLarge)
    );
    db.line("publish at 10: add column age int on people")?;
    let newer = db.lease(10)?;
    let (column, is_key) = (Some("age".to_string()), false);
    assert_eq!(
        newer.query(10, "select age from people"),
        Err(Error::NotPublic {
            column: column.clone(),
            is_key
        })
    );
    assert_eq!(
        lease.query(10, "select age from people"),
        Err(Error::NotPublic { column, is_key })
    );
    Ok(())
}

#[test]
fn long_replies_come_whole() -> Result<(), Error> {
    let db = people();
    let lease = db.lease(0)?;
    let town = "\u{fc}'".repeat(300);
    for id in 0..100 {
        lease
            .txn()
            .insert("people", id, [("town", &town)])
            .commit(0)?;
    }
    let rows = lease.query(0, "select town from people")?;
    assert_eq!(rows.len(), 100);
    assert!(rows
        .iter()
        .all(|row| row.get("town") == Some(&town.as_str().into())));
    Ok(())
}

#[test]
fn stores_leases_and_transactions_may_go_to_other_threads() {
    fn shared<T: Send + Sync>() {}
    fn sent<T: Send>() {}
    shared::<Session>();
    shared::<Db>();
    shared::<Lease<'static>>();
    shared::<Txn<'static>>();
    sent::<Prepared<'static>>();
    shared::<Snapshot>();
    shared::<Query>();
    shared::<Error>();
}

#[test]
fn threads_share_a_store_and_a_lease() -> Result<(), Error> {
    let db = people();
    let lease = db.lease(0)?;
    let insert = |id| {
        lease
            .txn()
            .insert("people", id, [("town", "Ulm")])
            .commit(0)
    };
    let write = |from: i64| (from..from + 200).try_for_each(|id| insert(id).map(drop));
    thread::scope(|scope| {
        let writers = [0, 200, 400, 600].map(|from| scope.spawn(move || write(from)));
        writers
            .into_iter()
            .try_for_each(|writer| writer.join().unwrap())
    })?;
    assert_eq!(db.line("check")?, "ok rows 800 missing 0 extra 0\n");
    Ok(())
}
