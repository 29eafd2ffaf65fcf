//! Transactions that read, over the real library. All numbers are worked out by hand.

mod shared;

use cagzhomul::Type::{Int, Text};
use cagzhomul::{retry, Check, Db, Error, Lease, Query, Receipt, Row, RowKey, Table, Txn, Value};
use shared::{drive, people, plain};
use std::cell::Cell;
use std::thread;

const THREADS: i64 = 8;
const ADDITIONS: i64 = 10_000; // of each thread
const ROWS: i64 = 5;

fn counters() -> Db {
    let table = Table::new("counters").key("id", Int).column("n", Int);
    Db::open([table.index("by_n", ["n"])]).unwrap()
}

/// What a counter holds.
fn number(row: Option<&Row>) -> i64 {
    match row.and_then(|row| row.get("n")) {
        Some(Value::Int(number)) => *number,
        _ => 0,
    }
}

fn one_more(row: Option<&Row>) -> Option<[(&'static str, i64); 1]> {
    Some([("n", number(row) + 1)])
}

fn rows(count: u64) -> Check {
    Check {
        rows: count,
        missing: 0,
        extra: 0,
    }
}

#[test]
fn rows_are_as_the_store_holds_them() -> Result<(), Error> {
    let table = Table::new("t").key("a", Int).key("b", Text);
    let db = Db::open([table.column("n", Int).column("s", Text)])?;
    let lease = db.lease(0)?;
    let text = "it's\0\u{fc}";
    let cells = [("n", Value::from(i64::MIN)), ("s", text.into())];
    lease
        .txn()
        .insert("t", (1, text), cells)
        .insert("t", (2, ""), ())
        .commit(0)?;
    let mut txn = lease.txn();
    let first = txn.get("t", (1, text))?.unwrap();
    assert_eq!(first.key(), [1.into(), text.into()]);
    let cells = [("n", i64::MIN.into()), ("s", Value::from(text))];
    assert_eq!(
        first.cells(),
        cells.map(|(column, value)| (column.to_string(), value))
    );
    assert_eq!(txn.get("t", (3, ""))?, None);
    // Neither what it writes is in them, nor what others do.
    let mut txn = txn
        .update("t", (1, text), [("n", 5)])
        .insert("t", (3, ""), ());
    lease.txn().update("t", (1, text), [("n", 7)]).commit(0)?;
    assert_eq!(txn.get("t", (1, text))?, Some(first));
    assert_eq!(txn.get("t", (3, ""))?, None);
    assert_eq!(
        txn.get("t", (2, ""))?.map(|row| row.get("n").cloned()),
        Some(Some(Value::Null))
    );
    let row = Some(RowKey::new("t", (1, text)));
    assert_eq!(txn.commit(0), Err(Error::Conflict { row }));
    assert_eq!(db.check()?, rows(2));
    Ok(())
}

#[test]
fn rows_have_the_columns_of_the_version_of_the_lease() -> Result<(), Error> {
    let (db, now) = (people(), Cell::new(5));
    let old = db.lease(5)?;
    old.txn().insert("people", 1, [("town", "Ulm")]).commit(5)?;
    let mut before = old.txn();
    drive(&db, "add column age int default 7 on people", &now)?;
    let new = db.lease(now.get())?;
    let cells = |row: Option<Row>| row.unwrap().cells().len();
    assert_eq!(
        (
            cells(before.get("people", 1)?),
            cells(new.txn().get("people", 1)?)
        ),
        (1, 2)
    );
    let late = before.update("people", 1, [("town", "Hof")]);
    let (until, now) = (15, now.get());
    assert_eq!(late.commit(now), Err(Error::LeaseEnded { until, now }));
    Ok(())
}

#[test]
fn a_change_of_a_row_that_was_got_is_a_conflict() -> Result<(), Error> {
    // The row is written, or it is only got.
    let writes: [fn(Txn<'_>) -> Txn<'_>; 4] = [
        |txn| txn.update("people", 1, [("town", "Hof")]),
        |txn| txn.delete("people", 1),
        |txn| txn,
        |txn| txn.insert("people", 9, ()),
    ];
    for write in writes {
        let db = people();
        let lease = db.lease(5)?;
        lease
            .txn()
            .insert("people", 1, [("town", "Ulm")])
            .insert("people", 2, ())
            .commit(5)?;
        for change in [
            lease.txn().update("people", 1, [("town", "Bonn")]),
            lease.txn().delete("people", 1),
        ] {
            let mut txn = lease.txn();
            assert!(txn.get("people", 1)?.is_some());
            change.commit(5)?;
            txn.get("people", 2)?; // what is got later does not read the first row again
            let row = Some(RowKey::new("people", 1));
            assert_eq!(write(txn).commit(5), Err(Error::Conflict { row }));
        }
        assert_eq!((db.session().log_length()?, db.check()?), (4, rows(1)));
    }
    Ok(())
}

#[test]
fn the_insertion_of_a_row_that_was_not_there_is_a_conflict() -> Result<(), Error> {
    let db = people();
    let lease = db.lease(5)?;
    let writes: [fn(Txn<'_>) -> Txn<'_>; 3] = [
        |txn| txn,
        |txn| txn.insert("people", 1, ()),
        |txn| txn.insert("people", 2, ()),
    ];
    for write in writes {
        let mut txn = lease.txn();
        assert_eq!(txn.get("people", 1)?, None);
        lease.txn().insert("people", 1, ()).commit(5)?;
        let row = Some(RowKey::new("people", 1));
        assert_eq!(write(txn).write(5), Err(Error::Conflict { row })); // as by commit
        lease.txn().delete("people", 1).commit(5)?;
    }
    assert_eq!((db.session().log_length()?, db.check()?), (7, rows(0)));
    Ok(())
}

#[test]
fn rows_that_are_only_got_are_pinned_by_operations_that_change_nothing() -> Result<(), Error> {
    let db = people();
    let lease = db.lease(5)?;
    lease
        .txn()
        .insert("people", 1, [("town", "Ulm")])
        .commit(5)?;
    let mut txn = lease.txn();
    for id in 1..=3 {
        txn.get("people", id)?;
    }
    let txn = txn.insert("people", 3, [("town", "Bonn")]);
    lease.txn().insert("people", 4, ()).commit(5)?; // which it does not name
    let pairs = db.line("pairs")?;
    assert_eq!(
        (txn.commit(5)?, db.check()?),
        (Receipt { place: 4 }, rows(3))
    );
    lease.txn().delete("people", 3).commit(5)?;
    assert_eq!(db.line("pairs")?, pairs);
    // After the moment and the lease: row 3 is inserted with 'Bonn', row 1 is updated without
    // cells, and row 2 inserted and deleted.
    let row = |id: u8| {
        let start = b"\0\0\0\x01\0\0\0\0\0\0\0\x01\x02\x80\0\0\0\0\0\0";
        [&start[..], &[id]].concat()
    };
    let wanted = [
        &b"\0\0\0\0\0\0\0\x04\0"[..],
        &row(3),
        b"\0\0\0\0\0\0\0\x01\0\0\0\x01\x03Bonn\0\x01\x01",
        &row(1),
        b"\0\0\0\0\0\0\0\0\0",
        &row(2),
        b"\0\0\0\0\0\0\0\0\x02",
        &row(2),
    ];
    assert_eq!(db.session().entry(4)?[34..], wanted.concat());
    Ok(())
}

#[test]
fn of_two_that_read_both_rows_and_write_one_only_the_first_is_committed() -> Result<(), Error> {
    let db = counters();
    let lease = db.lease(5)?;
    let one = [("n", 1)];
    lease
        .txn()
        .insert("counters", 1, one)
        .insert("counters", 2, one)
        .commit(5)?;
    let take = |id: i64| -> Result<Txn<'_>, Error> {
        let mut txn = lease.txn();
        for other in [1, 2] {
            assert_eq!(number(txn.get("counters", other)?.as_ref()), 1);
        }
        Ok(txn.update("counters", id, [("n", 0)]))
    };
    let (first, second) = (take(1)?, take(2)?.prepare()?);
    assert_eq!(first.commit(5)?.place, 3);
    let row = Some(RowKey::new("counters", 1));
    assert_eq!(second.commit(5), Err(Error::Conflict { row }));
    let found = lease.find(5, &Query::of("counters"))?;
    assert_eq!(
        found
            .iter()
            .map(|row| number(Some(row)))
            .collect::<Vec<_>>(),
        [0, 1]
    );
    Ok(())
}

#[test]
fn gets_are_refused_and_the_transaction_goes_on() -> Result<(), Error> {
    let db = people();
    let lease = db.lease(5)?;
    lease
        .txn()
        .insert("people", 1, [("town", "Ulm")])
        .commit(5)?;
    let long = "x".repeat(1025);
    let mut txn = lease.txn();
    for is_first in [true, false] {
        assert_eq!(txn.get("nobody", 1), Err(Error::NoTable));
        assert_eq!(
            txn.get("people", "1").map_err(plain),
            Err(Error::WrongType(None))
        );
        assert_eq!(
            txn.get("people", (1, 2)).map_err(plain),
            Err(Error::WrongType(None))
        );
        assert_eq!(
            txn.get("people", Value::Null).map_err(plain),
            Err(Error::WrongType(None))
        );
        assert_eq!(
            txn.get("people", &long).map_err(plain),
            Err(Error::WrongType(None))
        );
        assert_eq!(
            txn.get("nobody", &long).map_err(plain),
            Err(Error::WrongType(None))
        );
        assert_eq!(
            txn.get("people", if is_first { 1 } else { 2 })?.is_some(),
            is_first
        );
    }
    let place = txn.update("people", 1, [("town", "Hof")]).write(5)?.place;
    assert_eq!(place, 3);
    let mut txn = lease.txn();
    txn.get("people", 1)?;
    let faulty = txn.update("people", 1, ()).delete("people", 2);
    assert_eq!(faulty.commit(5), Err(Error::NoRow { operation: 1 }));
    let mut txn = lease.txn();
    txn.get("people", 1)?;
    let (column, is_key) = (Some("age".to_string()), false);
    let faulty = txn.update("people", 1, [("age", 1)]);
    assert_eq!(faulty.commit(5), Err(Error::NotPublic { column, is_key }));
    Ok(())
}

#[test]
fn rows_that_are_only_got_count_as_operations() -> Result<(), Error> {
    let db = people();
    let lease = db.lease(5)?;
    (0..64)
        .fold(lease.txn(), |txn, id| txn.insert("people", id, ()))
        .commit(5)?;
    for (count, first) in [(64, 0), (32, 100)] {
        // Two operations pin a row that is not there.
        let got = || {
            let mut txn = lease.txn();
            (first..first + count).try_for_each(|id| txn.get("people", id).map(drop))?;
            Ok::<_, Error>(txn)
        };
        assert!(got()?.commit(5).is_ok());
        let more = got()?.update("people", 64 - first, ());
        assert_eq!(more.commit(5), Err(Error::TooManyOps));
    }
    Ok(())
}

#[test]
fn a_row_is_inserted_updated_or_left() -> Result<(), Error> {
    let db = counters();
    let lease = db.lease(5)?;
    for place in 2..5 {
        assert_eq!(
            lease.modify("counters", 1, one_more, 5)?,
            Some(Receipt { place })
        );
    }
    let mut seen = Vec::new();
    for id in [1, 2] {
        let leave = |row: Option<&Row>| -> Option<()> {
            seen.push(row.map(|row| number(Some(row))));
            None
        };
        assert_eq!(lease.modify("counters", id, leave, 5)?, None);
    }
    assert_eq!((seen, db.session().log_length()?), (vec![Some(3), None], 4));
    assert_eq!(
        lease.modify("counters", 1, one_more, 15),
        Err(Error::LeaseEnded { until: 15, now: 15 })
    );
    let (column, is_key) = (Some("m".to_string()), false);
    let wrong = lease.modify("counters", 1, |_| Some([("m", 1)]), 5);
    assert_eq!(wrong, Err(Error::NotPublic { column, is_key }));
    Ok(())
}

#[test]
fn what_changed_meanwhile_is_read_again() -> Result<(), Error> {
    let db = counters();
    let lease = db.lease(5)?;
    let mut seen = Vec::new();
    // Meets another's write the first two times: an insertion, and a deletion.
    let meet = |row: Option<&Row>| {
        seen.push(row.is_some());
        match seen.len() {
            1 => lease
                .txn()
                .insert("counters", 1, ())
                .commit(5)
                .map(drop)
                .unwrap(),
            2 => lease
                .txn()
                .delete("counters", 1)
                .commit(5)
                .map(drop)
                .unwrap(),
            _ => {}
        }
        Some([("n", seen.len() as i64)])
    };
    assert_eq!(
        lease.modify("counters", 1, meet, 5)?,
        Some(Receipt { place: 4 })
    );
    assert_eq!(seen, [false, true, false]);
    assert_eq!(number(lease.txn().get("counters", 1)?.as_ref()), 3);
    Ok(())
}

/// Adds to the rows in turn, by both ways.
fn add(lease: &Lease<'_>, first: i64) -> Result<(), Error> {
    let add_one = |id| {
        let mut txn = lease.txn();
        let row = txn.get("counters", id)?;
        let cells = [("n", number(row.as_ref()) + 1)];
        match row {
            None => txn.insert("counters", id, cells).commit(5),
            Some(_) => txn.update("counters", id, cells).commit(5),
        }
    };
    for it in first..first + ADDITIONS / 2 {
        lease.modify("counters", it % ROWS, one_more, 5)?;
        retry(1_000_000, || add_one((it + 1) % ROWS))?;
    }
    Ok(())
}

#[test]
fn no_addition_of_eight_threads_is_lost() -> Result<(), Error> {
    let db = counters();
    let lease = db.lease(5)?;
    thread::scope(|scope| {
        let lease = &lease;
        let threads: Vec<_> = (0..THREADS)
            .map(|it| scope.spawn(move || add(lease, it)))
            .collect();
        threads.into_iter().try_for_each(|it| it.join().unwrap())
    })?;
    let found = lease.find(5, &Query::of("counters"))?;
    // Each thread adds equally to all rows.
    let wanted = vec![THREADS * ADDITIONS / ROWS; ROWS as usize];
    assert_eq!(
        found
            .iter()
            .map(|row| number(Some(row)))
            .collect::<Vec<_>>(),
        wanted
    );
    let length = db.session().log_length()?;
    assert_eq!(
        (length as i64, db.check()?),
        (1 + THREADS * ADDITIONS, rows(ROWS as u64))
    );
    Ok(())
}
