//! Transactions under leases that the store takes by itself, over the real library. All numbers are
//! worked out by hand.

use cagzhomul::{Attempt, Db, Error, OpenOptions, Receipt, Row, Runs, Step, Table, Type, Value};
use std::cell::Cell;
use std::thread;
use std::time::{Duration, Instant};

fn table() -> Table {
    let counters = Table::new("counters").key("id", Type::Int);
    counters.column("n", Type::Int)
}

fn counters() -> Result<Db, Error> {
    Db::open([table()])
}

fn n_of(row: Option<&Row>) -> i64 {
    match row.and_then(|row| row.get("n")) {
        Some(Value::Int(n)) => *n,
        _ => 0,
    }
}

fn add_one(row: Option<&Row>) -> Option<[(&'static str, i64); 1]> {
    Some([("n", n_of(row) + 1)])
}

fn add_in(txn: &mut Attempt<'_>) -> Result<(), Error> {
    match txn.get("counters", 1)? {
        Some(row) => txn.update("counters", 1, [("n", n_of(Some(&row)) + 1)]),
        None => txn.insert("counters", 1, [("n", 1)]),
    };
    Ok(())
}

/// The counter at a moment.
fn count(db: &Db, now: u64) -> Result<i64, Error> {
    let rows = db.query(now, "select n from counters where key = (1)")?;
    Ok(n_of(rows.first()))
}

/// Six threads that each make a hundred calls.
fn in_threads(call: &(dyn Fn() -> Result<(), Error> + Sync)) -> Result<(), Error> {
    thread::scope(|scope| {
        let all = || (0..100).try_for_each(|_| call());
        let threads = [(); 6].map(|()| scope.spawn(all));
        threads.into_iter().try_for_each(|it| it.join().unwrap())
    })
}

#[test]
fn no_update_is_lost_though_leases_end() -> Result<(), Error> {
    for is_modified in [false, true] {
        let db = OpenOptions::new().lease_length(2).open([table()])?;
        in_threads(&|| match is_modified {
            false => db.run(add_in),
            true => db.modify("counters", 1, add_one).map(drop),
        })?;
        assert_eq!(count(&db, db.clock()?.now())?, 600);
        // an entry for each, and a lease at least
        assert!(db.session().log_length()? >= 601);
    }
    Ok(())
}

#[test]
fn a_lease_is_taken_once_and_shared_with_queries() -> Result<(), Error> {
    let (db, now) = (counters()?, Cell::new(5));
    let runs = db.runs(|| now.get());
    let written = runs.write(|txn| txn.insert("counters", 1, [("n", 0)]))?;
    assert_eq!(written, Receipt { place: 2 });
    runs.run(add_in)?;
    assert_eq!((count(&db, 5)?, db.session().log_length()?), (1, 3));
    let modified = runs.modify("counters", 1, add_one)?;
    assert_eq!(modified, Some(Receipt { place: 4 }));
    let left = runs.modify("counters", 1, |_| None::<()>)?;
    assert_eq!((left, db.session().log_length()?), (None, 4));
    now.set(15); // the lease is from 5 until 15
    let n = runs.run(|txn| Ok(n_of(txn.get("counters", 1)?.as_ref())))?;
    assert_eq!((n, db.session().log_length()?), (2, 6)); // a lease, and a transaction that read
    Ok(())
}

#[test]
fn an_answer_is_the_last_of_the_function() -> Result<(), Error> {
    let (db, mut tries) = (counters()?, Vec::new());
    let runs = db.runs(|| 5);
    runs.write(|txn| txn.insert("counters", 1, [("n", 0)]))?;
    let made = runs.run(|txn| {
        let n = n_of(txn.get("counters", 1)?.as_ref());
        tries.push(n);
        if tries.len() == 1 {
            // another call comes between
            runs.write(|txn| txn.update("counters", 1, [("n", 7)]))?;
        }
        txn.update("counters", 1, [("n", n + 1)]);
        Ok(tries.len())
    })?;
    assert_eq!((made, tries, count(&db, 5)?), (2, vec![0, 7], 8));
    Ok(())
}

#[test]
fn a_new_version_is_met() -> Result<(), Error> {
    let (db, now) = (counters()?, Cell::new(0));
    let runs = db.runs(|| now.get());
    runs.write(|txn| txn.insert("counters", 1, ()))?;
    for step in db.change("add column age int on counters", || now.get())? {
        if let Step::Waiting { until } = step? {
            now.set(until);
        }
    }
    runs.write(|txn| txn.update("counters", 1, [("age", 5)]))?;
    let rows = db.query(now.get(), "select age from counters")?;
    assert_eq!(rows[0].get("age"), Some(&5.into()));
    Ok(())
}

#[test]
fn a_lease_that_ends_in_the_function_is_taken_anew() -> Result<(), Error> {
    let (db, now) = (counters()?, Cell::new(5));
    let mut tries = Vec::new();
    db.runs(|| now.get()).run(|txn| {
        tries.push(now.get());
        txn.insert("counters", tries.len() as i64, ());
        if tries.len() < 3 {
            now.set(now.get() + 10);
        }
        Ok(())
    })?;
    let rows = db.query(now.get(), "select * from counters")?;
    assert_eq!(tries, [5, 15, 25]);
    assert_eq!((rows.len(), rows[0].key()), (1, &[3.into()][..]));
    Ok(())
}

#[test]
fn a_clock_that_is_behind_is_served_under_a_new_lease() -> Result<(), Error> {
    let db = counters()?;
    let runs = db.runs(|| 5).within(Duration::ZERO);
    runs.write(|txn| txn.insert("counters", 1, ()))?;
    db.lease(1000)?; // by another clock
    runs.run(add_in)?; // at the moment 1,000
    runs.write(|txn| txn.delete("counters", 1))?;
    // two leases, and two transactions, and the lease of the other clock
    assert_eq!(db.session().log_length()?, 6);
    Ok(())
}

/// Calls that end in a refusal, with no time and with some.
fn ends(runs: impl Fn(Duration) -> Result<(), Error>, is_due: fn(&Error) -> bool) {
    for within in [Duration::ZERO, Duration::from_millis(20)] {
        let begun = Instant::now();
        let ended = runs(within);
        assert!(ended.as_ref().is_err_and(is_due), "{ended:?}");
        assert!(begun.elapsed() >= within);
    }
}

#[test]
fn it_ends_once_the_time_has_passed() -> Result<(), Error> {
    let (db, now) = (counters()?, Cell::new(5));
    let runs = || -> Runs<'_, _> { db.runs(|| now.get()) };
    runs().write(|txn| txn.insert("counters", 1, [("n", 0)]))?;
    let late = |txn: &mut Attempt<'_>| {
        txn.insert("counters", 9, ());
        now.set(now.get() + 10);
        Ok(())
    };
    let met = |txn: &mut Attempt<'_>| {
        let n = n_of(txn.get("counters", 1)?.as_ref());
        runs().write(|txn| txn.update("counters", 1, [("n", n + 1)]))?;
        txn.update("counters", 1, [("n", 0)]);
        Ok(())
    };
    ends(
        |within| runs().within(within).run(late),
        |it| matches!(it, Error::LeaseEnded { .. }),
    );
    ends(
        |within| runs().within(within).run(met),
        |it| matches!(it, Error::Conflict { row: Some(_) }),
    );
    let rows = db.query(now.get(), "select * from counters")?;
    assert_eq!(rows.len(), 1);
    Ok(())
}

#[test]
fn other_refusals_come_at_once() -> Result<(), Error> {
    let (db, calls) = (counters()?, Cell::new(0));
    let fails = |_: &mut Attempt<'_>| {
        calls.set(calls.get() + 1);
        Err::<(), _>(Error::Limit)
    };
    assert_eq!(db.run(fails), Err(Error::Limit));
    let no_row = Error::NoRow { operation: 0 };
    let deleted = db.run(|txn| {
        txn.delete("counters", 1);
        Ok(())
    });
    assert_eq!(deleted, Err(no_row.clone()));
    assert_eq!(db.write(|txn| txn.delete("counters", 1)), Err(no_row));
    let too_large = db.runs(|| u64::MAX).run(fails);
    assert_eq!((too_large, calls.get()), (Err(Error::MomentTooLarge), 1));
    Ok(())
}

#[test]
fn a_refusal_of_the_function_that_may_be_another_time_is_met_again() -> Result<(), Error> {
    let (db, calls) = (counters()?, Cell::new(0));
    let answer = db.runs(|| 5).run(|txn| {
        calls.set(calls.get() + 1);
        match calls.get() {
            1 => Err(Error::Conflict { row: None }),
            2 => Err(Error::WrongSchema),
            3 => Err(Error::BadLease),
            _ => txn.get("counters", 1),
        }
    })?;
    // the first lease, and one after each refusal but the conflict; and the transaction
    assert_eq!(
        (answer, calls.get(), db.session().log_length()?),
        (None, 4, 4)
    );
    Ok(())
}
