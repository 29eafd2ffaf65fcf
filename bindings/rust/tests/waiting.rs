//! Changes that wait for their first step, over the real library. All numbers are worked out by
//! hand.

mod shared;

use cagzhomul::{Db, Error, Step};
use shared::people;
use std::cell::Cell;
use std::sync::atomic::{AtomicU64, Ordering};
use std::thread;

const AGE: &str = "add column age int on people";
const NAME: &str = "add column name text on people";

fn waiting(until: u64) -> Option<Step> {
    Some(Step::Waiting { until })
}

fn advance(db: &Db, now: u64) -> Result<Option<Step>, Error> {
    db.advance(now, 8, 1000)
}

/// Whether the store has an element of this name in this state.
fn has(db: &Db, name: &str, state: &str) -> Result<bool, Error> {
    let status = db.status()?;
    let elements = status.split("{\"name\":\"");
    let mut named = elements.filter(|element| element.starts_with(&format!("{name}\"")));
    Ok(named.any(|element| element.contains(&format!("\"state\":\"{state}\""))))
}

#[test]
fn a_change_that_waits_is_begun_by_any_later_call() -> Result<(), Error> {
    let db = people();
    assert_eq!(db.change(AGE, || 3)?.next(), waiting(10).map(Ok)); // and the steps are dropped
    assert_eq!(advance(&db, 9)?, waiting(10));
    assert_eq!(
        (db.session().log_length()?, has(&db, "age", "absent")?),
        (0, false)
    );
    assert_eq!(advance(&db, 10)?, Some(Step::Acted));
    assert_eq!(
        (db.session().log_length()?, has(&db, "age", "delete_only")?),
        (1, true)
    );
    let steps = [19, 20, 20].map(|now| advance(&db, now));
    assert_eq!(steps, [Ok(waiting(20)), Ok(Some(Step::Acted)), Ok(None)]);
    drop(db.change(NAME, || 20)?);
    let now = Cell::new(25);
    let mut steps = Vec::new();
    for step in db.resume(|| now.get()) {
        let step = step?;
        if let Step::Waiting { until } = step {
            now.set(until);
        }
        steps.push(Some(step));
    }
    let acted = Some(Step::Acted);
    assert_eq!(steps, [waiting(30), acted, waiting(40), acted]);
    assert!(has(&db, "age", "public")? && has(&db, "name", "public")?);
    Ok(())
}

#[test]
fn a_change_that_may_begin_has_begun_at_once() -> Result<(), Error> {
    let db = people();
    drop(db.change(AGE, || 10)?); // no step is taken
    assert_eq!(
        (db.session().log_length()?, has(&db, "age", "delete_only")?),
        (1, true)
    );
    assert_eq!(
        db.resume(|| 20).collect::<Result<Vec<_>, _>>()?,
        [Step::Acted]
    );
    Ok(())
}

#[test]
fn another_change_is_refused_while_one_waits() -> Result<(), Error> {
    let db = people();
    drop(db.change(AGE, || 3)?);
    let waits = Error::StillWaiting {
        change: AGE.to_string(),
    };
    for change in [NAME, AGE, "what"] {
        assert_eq!(db.change(change, || 30).err(), Some(waits.clone()));
    }
    assert_eq!(db.complete(NAME, || 30), Err(waits));
    let list = format!("{NAME}; {AGE}");
    assert_eq!(db.change(&list, || 30).err(), Some(Error::BadLine));
    assert_eq!(
        (db.session().log_length()?, advance(&db, 10)?),
        (0, Some(Step::Acted))
    );
    let dropped = db.change("drop column age on people", || 20);
    assert_eq!(dropped.err(), Some(Error::InChange));
    assert_eq!(db.change(NAME, || 20)?.next(), Some(Ok(Step::Acted)));
    assert_eq!(
        (advance(&db, 30)?, advance(&db, 30)?),
        (Some(Step::Acted), None)
    );
    Ok(())
}

#[test]
fn a_change_that_waits_too_long_is_refused_and_forgotten() -> Result<(), Error> {
    let db = people();
    drop(db.change(AGE, || 3)?);
    assert_eq!(advance(&db, (1 << 62) + 1), Err(Error::MomentTooLarge));
    db.line("publish at 10: add column age text on people")?;
    assert_eq!(advance(&db, 10), Err(Error::NameTaken));
    assert_eq!(
        [10, 20].map(|now| advance(&db, now)),
        [Ok(waiting(20)), Ok(Some(Step::Acted))]
    );
    assert_eq!((advance(&db, 20)?, db.session().log_length()?), (None, 2));
    assert_eq!(db.change(NAME, || 20)?.next(), waiting(30).map(Ok));
    Ok(())
}

#[test]
fn other_changes_go_on_while_one_waits() -> Result<(), Error> {
    let db = people();
    let lease = db.lease(0)?;
    lease
        .txn()
        .insert("people", 1, ())
        .insert("people", 2, ())
        .commit(0)?;
    let begin = |change, now| db.change(change, move || now)?.next().transpose();
    let acted = Some(Step::Acted);
    assert_eq!(begin("add index by_town on people (town)", 10)?, acted);
    assert_eq!((advance(&db, 20)?, begin(AGE, 30)?), (acted, acted));
    assert_eq!(begin(NAME, 31)?, waiting(40));
    // The begin of the index's fill, and two rows; nothing is left then but to publish.
    for step in [acted, acted, acted, waiting(40)] {
        assert_eq!(db.advance(31, 1, 1)?, step);
    }
    assert!(!has(&db, "name", "delete_only")?);
    assert_eq!(
        (advance(&db, 40)?, has(&db, "name", "delete_only")?),
        (acted, true)
    );
    // All that waited for a version to pass goes on in one.
    let steps = [40, 50, 50].map(|now| advance(&db, now));
    assert_eq!(steps, [Ok(waiting(50)), Ok(acted), Ok(None)]);
    for name in ["by_town", "age", "name"] {
        assert!(has(&db, name, "public")?, "{name}");
    }
    assert_eq!((db.lease(50)?.version(), db.check()?.is_clean()), (6, true));
    Ok(())
}

#[test]
fn an_iterator_sleeps_until_the_clock_has_come() -> Result<(), Error> {
    let (db, asked) = (people(), Cell::new(0));
    // Each time it is asked it is a tenth of a moment later.
    let clock = || {
        asked.set(asked.get() + 1);
        asked.get() / 10
    };
    let steps = db.change(AGE, clock)?.collect::<Result<Vec<_>, _>>()?;
    let acted = Step::Acted;
    let wanted = [
        Step::Waiting { until: 10 },
        acted,
        Step::Waiting { until: 20 },
        acted,
    ];
    assert_eq!(steps, wanted);
    // It was asked once more, for the end.
    assert_eq!((asked.get(), db.lease(20)?.version()), (201, 3));
    Ok(())
}

#[test]
fn threads_write_while_a_change_is_completed() -> Result<(), Error> {
    let (db, clock) = (people(), AtomicU64::new(0));
    let now = || clock.load(Ordering::Relaxed);
    let mut id = 0;
    thread::scope(|scope| {
        let completed = scope.spawn(|| db.complete("add index by_town on people (town)", now));
        while !completed.is_finished() {
            let lease = db.lease(now())?;
            for _ in 0..20 {
                id += 1;
                lease
                    .txn()
                    .insert("people", id, [("town", "Ulm")])
                    .commit(now())?;
            }
            clock.fetch_add(1, Ordering::Relaxed);
        }
        completed.join().unwrap()
    })?;
    let rows = db.query(now(), "select town from people where town = 'Ulm'")?;
    assert_eq!((rows.len() as i64, db.check()?.is_clean()), (id, true));
    assert!(has(&db, "by_town", "public")?);
    Ok(())
}
