//! Schema changes, and sessions' calls, over the real library. All numbers are worked out by hand.

mod shared;

use cagzhomul::{Error, Session, Step};
use shared::{drive, people};
use std::cell::Cell;

#[test]
fn names_are_those_of_the_version_of_the_lease() -> Result<(), Error> {
    let (db, now) = (people(), Cell::new(0));
    let old = db.lease(0)?;
    drive(&db, "add column age int on people", &now)?;
    let new = db.lease(now.get())?;
    assert_eq!((old.version(), new.version()), (1, 3));
    new.txn()
        .insert("people", 1, [("age", 33)])
        .commit(now.get())?;
    assert_eq!(
        new.query(now.get(), "select * from people")?[0].get("age"),
        Some(&33.into())
    );
    let column = || Some("age".to_string());
    let unknown = old.txn().insert("people", 2, [("age", 33)]);
    assert_eq!(
        unknown.commit(0),
        Err(Error::NotPublic {
            column: column(),
            is_key: false
        })
    );
    // The number stays that of the name after it is dropped, for a lease that still has it.
    db.line(&format!(
        "publish at {}: move people.age to delete_only",
        now.get() + 10
    ))?;
    let last = db.lease(now.get() + 10)?;
    let dropped = last.txn().update("people", 1, [("age", 34)]);
    assert_eq!(
        dropped.commit(now.get() + 10),
        Err(Error::NotPublic {
            column: column(),
            is_key: false
        })
    );
    Ok(())
}

#[test]
fn indexes_and_columns_are_added_and_dropped() -> Result<(), Error> {
    let (db, now) = (people(), Cell::new(0));
    let version = |now: &Cell<u64>| db.lease(now.get()).map(|lease| lease.version());
    db.lease(0)?
        .txn()
        .insert("people", 1, [("town", "Ulm")])
        .commit(0)?;
    let steps = drive(&db, "add index by_town on people (town)", &now)?;
    assert_eq!(steps.first(), Some(&Step::Waiting { until: 10 }));
    assert_eq!((version(&now)?, steps.last()), (4, Some(&Step::Acted)));
    drive(&db, "add column age int default 7 on people", &now)?;
    assert_eq!(version(&now)?, 7);
    assert_eq!(
        db.query(now.get(), "select age from people")?[0].get("age"),
        Some(&7.into())
    );
    assert_eq!(
        drive(&db, "drop column town on people", &now),
        Err(Error::StillIndexed)
    );
    drive(&db, "drop index by_town on people", &now)?;
    drive(&db, "drop column town on people", &now)?;
    assert_eq!(
        db.query(now.get(), "select * from people")?[0]
            .cells()
            .len(),
        1
    );
    assert!(db.check()?.is_clean());
    Ok(())
}

#[test]
fn refusals_of_a_change() -> Result<(), Error> {
    let db = people();
    let begin = |change: &str| db.change(change, || 10).err();
    assert_eq!(begin("add"), Some(Error::BadLine));
    assert_eq!(
        begin("drop index i on people; drop index j on people"),
        Some(Error::BadLine)
    );
    assert_eq!(begin("drop index by_town on people"), Some(Error::Unknown));
    assert_eq!(
        begin("add column town int on people"),
        Some(Error::NameTaken)
    );
    assert_eq!(
        begin("add column age int default null on people"),
        Some(Error::Limit)
    );
    let late = db.change("add column age int on people", || 1 << 63).err();
    assert_eq!(late, Some(Error::MomentTooLarge));
    assert_eq!(db.line("log")?, "ok log 0\n");
    assert_eq!(begin("add column age int on people"), None);
    assert_eq!(begin("drop column age on people"), Some(Error::InChange));
    let mut steps = db.resume(|| 20).pieces(65);
    assert_eq!(steps.next(), Some(Err(Error::BadCount)));
    assert_eq!(steps.next(), None);
    assert_eq!(
        db.resume(|| 20).collect::<Result<Vec<_>, _>>()?,
        [Step::Acted]
    );
    Ok(())
}

#[test]
fn a_change_that_is_early_waits_and_begins_later() -> Result<(), Error> {
    let (db, now) = (people(), Cell::new(3));
    let mut steps = db.change("add column age int on people", || now.get())?;
    assert_eq!(steps.next(), Some(Ok(Step::Waiting { until: 10 })));
    db.line("plan: drop column town on people")?; // another kept plan is in nobody's way
    now.set(10);
    assert_eq!(steps.next(), Some(Ok(Step::Acted)));
    assert_eq!(steps.next(), Some(Ok(Step::Waiting { until: 20 })));
    now.set(20);
    assert_eq!(steps.next(), Some(Ok(Step::Acted)));
    assert_eq!(steps.next(), None);
    assert!(db
        .line("status")?
        .contains("\"name\":\"age\",\"number\":2,\"state\":\"public\""));
    Ok(())
}

#[test]
fn a_replica_repeats_the_log() -> Result<(), Error> {
    let (first, second, now) = (people(), people(), Cell::new(0));
    first
        .lease(0)?
        .txn()
        .insert("people", 1, [("town", "Ulm")])
        .commit(0)?;
    drive(&first, "add index by_town on people (town)", &now)?;
    let status = first.line("status")?;
    for place in 1..=first.session().log_length()? {
        second.session().repeat(&first.session().entry(place)?)?;
    }
    assert_eq!(second.line("status")?, status);
    assert_eq!(second.session().repeat(b"what"), Err(Error::BadEntry));
    assert_eq!(
        second.session().repeat(&first.session().entry(2)?),
        Err(Error::NotNext)
    );
    // A lease here finds the names, whoever published the version.
    let lease = second.lease(now.get())?;
    assert_eq!(
        lease
            .query(now.get(), "select town from people where town = 'Ulm'")?
            .len(),
        1
    );
    Ok(())
}

/// A call that wants a world.
type Call = fn(&Session) -> Result<(), Error>;

#[test]
fn a_session_before_its_line_open_has_no_world() -> Result<(), Error> {
    let session = Session::open()?;
    assert_eq!(session.line("")?, "");
    let calls: [Call; 10] = [
        |session| session.advance(0, 1, 1).map(drop),
        |session| session.due_entry(0, 1, 1).map(drop),
        |session| session.entry(1).map(drop),
        |session| session.repeat(b""),
        |session| session.schema().map(drop),
        |session| session.log_length().map(drop),
        |session| session.log_start().map(drop),
        |session| session.cut(0),
        |session| session.checkpoint().map(drop),
        |session| session.fork().map(drop),
    ];
    for call in calls {
        assert_eq!(call(&session), Err(Error::NotOpened));
    }
    session.line("table t (id int key)")?;
    assert_eq!(session.line("open")?, "ok version 1\n");
    let before_any = [Error::BadEntry, Error::NoEntry];
    for call in calls {
        let refused = call(&session).err();
        assert!(refused.is_none_or(|error| before_any.contains(&error)));
    }
    Ok(())
}
