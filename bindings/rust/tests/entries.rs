//! The entries that calls would add, over the real library. All numbers are worked out by hand.

mod shared;

use cagzhomul::{Db, Due, Error, OpenOptions, Receipt, RowKey, Session, Step, Table, Txn, Type};
use shared::{people, table};

/// How a store stands, and all that it holds.
fn state(db: &Db) -> Result<(String, Vec<u8>), Error> {
    Ok((db.status()?, db.session().checkpoint()?))
}

/// Whether two stores hold the same.
fn agree(db: &Db, replica: &Db) -> Result<bool, Error> {
    let are_pairs_equal = db.line("pairs")? == replica.line("pairs")?;
    Ok(are_pairs_equal && db.status()? == replica.status()?)
}

#[test]
fn the_entry_of_a_transaction_is_the_one_that_its_commit_adds() -> Result<(), Error> {
    let (db, replica) = (people(), people());
    let lease = db.lease(5)?;
    replica.session().repeat(&db.session().entry(1)?)?;
    let writes: [fn(Txn<'_>) -> Result<Txn<'_>, Error>; 4] = [
        |txn| {
            Ok(txn
                .insert("people", 1, [("town", "Ulm")])
                .insert("people", 2, ()))
        },
        |txn| {
            let long = "x".repeat(1024);
            let txn = txn.update("people", 1, [("town", long)]);
            Ok(txn.delete("people", 2))
        },
        |mut txn| {
            // what was only got is pinned
            txn.get("people", 1)?;
            txn.get("people", 9)?;
            Ok(txn.insert("people", 3, ()))
        },
        |txn| Ok(txn.delete("people", 1).delete("people", 3)),
    ];
    for (place, write) in (2..).zip(writes) {
        let now = 3 + place;
        let mut txn = write(lease.txn())?.prepare()?;
        let before = state(&db)?;
        let entry = txn.entry(now)?;
        assert_eq!(entry[..9], [&[1][..], &now.to_be_bytes()].concat());
        assert_eq!(txn.entry(now)?, entry);
        assert_eq!(state(&db)?, before);
        replica.session().repeat(&entry)?;
        assert_eq!(txn.commit(now)?, Receipt { place });
        assert_eq!(db.session().entry(place)?, entry);
        assert!(agree(&db, &replica)?);
    }
    assert_eq!(db.check()?.rows, 0);
    Ok(())
}

#[test]
fn an_entry_is_that_of_the_moment_and_of_what_was_read() -> Result<(), Error> {
    let db = people();
    let lease = db.lease(5)?;
    let insert = |id| lease.txn().insert("people", id, ()).prepare();
    let moment = |entry: Vec<u8>| entry[8];
    let mut first = insert(1)?;
    assert_eq!(moment(first.entry(3)?), 5); // that of the last entry is greater
    assert_eq!(moment(first.entry(7)?), 7);
    db.lease(8)?;
    assert_eq!(moment(first.entry(7)?), 8);
    // An entry may be repeated in place of the commit, which then finds the row changed.
    let entry = first.entry(8)?;
    db.session().repeat(&entry)?;
    assert_eq!(db.session().entry(3)?, entry);
    let row = Some(RowKey::new("people", 1));
    assert_eq!(first.commit(8), Err(Error::Conflict { row }));
    // Entries of two transactions on different rows may be repeated one after the other.
    let (mut second, mut third) = (insert(2)?, insert(3)?);
    let entries = [second.entry(8)?, third.entry(8)?];
    for entry in entries {
        db.session().repeat(&entry)?;
    }
    assert_eq!((db.session().log_length()?, db.check()?.rows), (5, 3));
    Ok(())
}

#[test]
fn an_entry_is_refused_as_its_commit_is() -> Result<(), Error> {
    let table = Table::new("t").key("id", Type::Text).column("n", Type::Int);
    let db = OpenOptions::new().furthest_jump(100).open([table])?;
    let lease = db.lease(5)?;
    let long = "x".repeat(1024); // its pairs have keys of over 1,000 bytes
    lease
        .txn()
        .insert("t", "a", ())
        .insert("t", &long, ())
        .commit(5)?;
    let update = |key: &str| lease.txn().update("t", key, [("n", 1)]);
    let row = |key: &str| Some(RowKey::new("t", key));
    let (until, now) = (15, 15);
    let conflicts = [update("a").prepare()?, update(&long).prepare()?];
    lease
        .txn()
        .update("t", "a", [("n", 2)])
        .update("t", &long, [("n", 2)])
        .commit(5)?;
    let [first, second] = conflicts;
    let insert = lease.txn().update("t", "a", ()).insert("t", "a", ());
    let delete = || lease.txn().delete("t", "b");
    let cases = [
        (first, 5, Error::Conflict { row: row("a") }),
        (second, 5, Error::Conflict { row: row(&long) }),
        (insert.prepare()?, 5, Error::Duplicate { operation: 1 }),
        (delete().prepare()?, 5, Error::NoRow { operation: 0 }),
        (delete().prepare()?, 15, Error::LeaseEnded { until, now }),
        (delete().prepare()?, 106, Error::TooFar),
        (delete().prepare()?, u64::MAX, Error::TooFar),
    ];
    let before = state(&db)?;
    for (mut txn, now, error) in cases {
        for _ in 0..3 {
            assert_eq!(txn.entry(now), Err(error.clone()));
        }
        assert_eq!(txn.commit(now), Err(error));
    }
    assert_eq!(state(&db)?, before);
    // After a refusal it may be asked at another moment.
    let mut txn = lease.txn().delete("t", "a").prepare()?;
    assert_eq!(txn.entry(15), Err(Error::LeaseEnded { until, now }));
    let entry = txn.entry(6)?;
    assert_eq!(txn.entry(106), Err(Error::TooFar));
    let place = txn.commit(6)?.place;
    assert_eq!((place, db.session().entry(place)?), (4, entry));
    let large = people();
    let lease = large.lease(0)?;
    let mut txn = lease.txn().insert("people", 1, ()).prepare()?;
    assert_eq!(txn.entry((1 << 62) + 1), Err(Error::MomentTooLarge));
    assert_eq!(txn.commit(0), Ok(Receipt { place: 2 }));
    Ok(())
}

#[test]
fn the_due_entry_is_the_one_that_an_advance_adds() -> Result<(), Error> {
    let (db, replica) = (people(), people());
    let lease = db.lease(0)?;
    for id in 1..=3 {
        lease
            .txn()
            .insert("people", id, [("town", "Ulm")])
            .commit(0)?;
    }
    for place in 1..=4 {
        replica.session().repeat(&db.session().entry(place)?)?;
    }
    assert_eq!(db.due_entry(0, 1, 2)?, None);
    drop(db.change("add index by_town on people (town)", || 3)?); // it waits until 10
    let (mut now, mut acts) = (3, 0);
    loop {
        let before = state(&db)?;
        let due = db.due_entry(now, 1, 2)?;
        assert_eq!(db.session().due_entry(now, 1, 2)?, due);
        assert_eq!(state(&db)?, before);
        match (due, db.advance(now, 1, 2)?) {
            (Some(Due::Entry(entry)), Some(Step::Acted)) => {
                let place = db.session().log_length()?;
                assert_eq!(db.session().entry(place)?, entry);
                replica.session().repeat(&entry)?;
                assert!(agree(&db, &replica)?);
                acts += 1;
            }
            (Some(Due::Waiting { until }), Some(Step::Waiting { until: other })) => {
                assert_eq!(until, other);
                now = until;
            }
            (None, None) => break,
            other => panic!("{other:?}"),
        }
    }
    assert_eq!((now, acts), (30, 6)); // three versions, the begin, two rows and one
    assert_eq!(replica.check()?, db.check()?);
    Ok(())
}

#[test]
fn a_due_entry_is_refused_as_an_advance_is() -> Result<(), Error> {
    let db = OpenOptions::new().furthest_jump(100).open([table()])?;
    db.line("publish at 10: add column age int on people")?;
    let before = state(&db)?;
    for (now, pieces, limit, error) in [
        (20, 0, 1, Error::BadCount),
        (20, 65, 1, Error::BadCount),
        (20, 1, 0, Error::BadCount),
        (20, 1, 1001, Error::BadCount),
        (111, 1, 1, Error::TooFar),
        (111, 0, 0, Error::TooFar),
        (u64::MAX, 1, 1, Error::TooFar),
    ] {
        let due = db.due_entry(now, pieces, limit);
        assert_eq!(due, Err(error.clone()), "{now} {pieces} {limit}");
        assert_eq!(db.advance(now, pieces, limit), Err(error));
    }
    let waiting = Some(Due::Waiting { until: 20 });
    assert_eq!(db.due_entry(19, 1, 1)?, waiting);
    assert_eq!(state(&db)?, before);
    let late = people().due_entry((1 << 62) + 1, 1, 1);
    assert_eq!(late, Err(Error::MomentTooLarge));
    let session = Session::open()?;
    assert_eq!(session.due_entry(0, 1, 1), Err(Error::NotOpened));
    Ok(())
}

#[test]
fn a_change_that_waits_is_due_and_is_not_forgotten() -> Result<(), Error> {
    let db = people();
    drop(db.change("add column age int on people", || 3)?);
    let waiting = |until| Some(Due::Waiting { until });
    assert_eq!(db.due_entry(9, 8, 1000)?, waiting(10));
    let Some(Due::Entry(entry)) = db.due_entry(10, 8, 1000)? else {
        panic!("its first step is due");
    };
    let replica = people();
    replica.session().repeat(&entry)?;
    let name = |db: &Db| db.element("people", "age");
    assert_eq!((name(&replica), name(&db)), (Ok(2), Err(Error::Unknown)));
    // It is refused, and stays until an advance finds out.
    db.line("publish at 10: add column age text on people")?;
    for _ in 0..2 {
        assert_eq!(db.due_entry(10, 8, 1000), Err(Error::NameTaken));
    }
    assert_eq!(db.advance(10, 8, 1000), Err(Error::NameTaken));
    assert_eq!(db.due_entry(10, 8, 1000)?, waiting(20));
    Ok(())
}
