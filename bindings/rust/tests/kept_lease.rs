//! Queries under the kept lease, over the real library. All numbers are worked out by hand.

mod shared;

use cagzhomul::{Db, Error, SchemaChange, Step};
use shared::{drive, people};
use std::cell::Cell;
use std::thread;

const ALL: &str = "select * from people";

#[test]
fn queries_share_a_lease_until_it_ends() -> Result<(), Error> {
    let db = people();
    for _ in 0..100 {
        assert_eq!(db.query(5, ALL)?, []);
    }
    assert_eq!(db.session().log_length()?, 1); // from 5 until 15
    db.lease(6)?.txn().insert("people", 1, ()).commit(6)?;
    assert_eq!(
        (db.query(14, ALL)?.len(), db.session().log_length()?),
        (1, 3)
    );
    for _ in 0..9 {
        assert_eq!(db.query(15, ALL)?.len(), 1);
    }
    assert_eq!(db.query((1 << 62) + 1, ALL), Err(Error::MomentTooLarge));
    assert_eq!(db.query(16, "select from"), Err(Error::BadLine));
    assert_eq!(db.session().log_length()?, 4);
    // The code of an entry begins with its version and its moment.
    assert_eq!(db.session().entry(4)?[..10], *b"\x01\0\0\0\0\0\0\0\x0f\0");
    Ok(())
}

#[test]
fn a_query_sees_the_newest_version_after_a_change() -> Result<(), Error> {
    let (db, now) = (people(), Cell::new(0));
    db.lease(0)?.txn().insert("people", 1, ()).commit(0)?;
    let columns = |now: u64| Ok::<_, Error>(db.query(now, ALL)?[0].cells().len());
    assert_eq!((columns(0)?, db.session().log_length()?), (1, 3));
    drive(&db, "add column age int on people", &now)?;
    // The versions are from 10 and from 20 on, and nobody has asked under the second.
    assert_eq!((now.get(), db.session().log_length()?), (20, 5));
    for _ in 0..9 {
        assert_eq!(columns(20)?, 2);
    }
    assert_eq!(db.session().log_length()?, 6);
    Ok(())
}

#[test]
fn each_call_by_which_a_version_may_be_published_is_noticed() -> Result<(), Error> {
    let (db, replica) = (people(), people());
    db.lease(0)?.txn().insert("people", 1, ()).commit(0)?;
    let steps = db.plan(&[SchemaChange::drop_column("people", "town")])?;
    let columns = |db: &Db, now| -> Result<Vec<String>, Error> {
        let cells = db.query(now, ALL)?[0].cells().to_vec();
        Ok(cells.into_iter().map(|(column, _)| column).collect())
    };
    let calls: [&dyn Fn(u64) -> Result<(), Error>; 4] = [
        &|now| db.change("add column age int on people", || now).map(drop),
        &|now| db.advance(now, 8, 1000).map(drop),
        &|now| db.publish(now, &steps[0]).map(drop),
        &|now| {
            let line = format!("publish at {now}: move people.age to delete_only");
            db.line(&line).map(drop)
        },
    ];
    let mut seen = Vec::new();
    for (now, call) in [15, 35, 55, 75].into_iter().zip(calls) {
        db.query(now - 3, ALL)?; // under a lease until now + 7
        call(now)?;
        seen.push(columns(&db, now)?);
    }
    assert_eq!(seen, [&["town"][..], &["town", "age"], &["age"], &[]]);
    // The lease and the row, and then a lease, a publication and another lease each time.
    assert_eq!(
        (db.lease(75)?.version(), db.session().log_length()?),
        (5, 2 + 3 * 4 + 1)
    );
    for place in 1..=2 {
        replica.session().repeat(&db.session().entry(place)?)?;
    }
    for (place, seen) in (3..).step_by(3).zip(seen) {
        replica.session().repeat(&db.session().entry(place)?)?;
        replica.query(0, ALL)?;
        replica.session().repeat(&db.session().entry(place + 1)?)?;
        assert_eq!(columns(&replica, 0)?, seen);
        replica.session().repeat(&db.session().entry(place + 2)?)?;
    }
    Ok(())
}

#[test]
fn acts_that_publish_nothing_cost_no_lease() -> Result<(), Error> {
    let (db, now) = (people(), Cell::new(0));
    let lease = db.lease(0)?;
    for id in 0..5 {
        lease.txn().insert("people", id, ()).commit(0)?;
    }
    let change = db.change("add index by_town on people (town)", || now.get())?;
    for step in change.pieces(1).limit(1) {
        if let Step::Waiting { until } = step? {
            now.set(until);
        }
        assert_eq!(db.query(now.get(), ALL)?.len(), 5);
    }
    // Six entries before, three versions, the begin and five pieces; and a lease on the versions 1
    // and 2 at 10, on 2 and 3 at 20, and on 3 and 4 at 30.
    assert_eq!(db.session().log_length()?, 6 + 3 + 1 + 5 + 6);
    Ok(())
}

#[test]
fn threads_share_the_kept_lease() -> Result<(), Error> {
    let db = people();
    let query = |now| (0..50).try_for_each(|_| db.query(now, ALL).map(drop));
    for now in [5, 15] {
        thread::scope(|scope| {
            let readers = [(); 4].map(|()| scope.spawn(|| query(now)));
            readers.into_iter().try_for_each(|it| it.join().unwrap())
        })?;
    }
    assert_eq!(db.session().log_length()?, 2);
    Ok(())
}
