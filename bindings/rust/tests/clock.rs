//! The clock of a store, and clocks that are behind the world, over the real library. All numbers are
//! worked out by hand.

mod shared;

use cagzhomul::{Db, Error, OpenOptions, SchemaChange, Session, Step};
use shared::{people, table};
use std::thread;
use std::time::{Duration, Instant};

const INDEX: &str = "add index by_town on people (town)";
/// A moment at which no clock is that began with the machine: in milliseconds some 30,000 years.
const FAR: u64 = 1_000_000_000_000_000;

/// A store whose leases last 20 moments, and that goes on from a world whose last entry is of this moment.
fn going_on_from(moment: u64) -> Result<Db, Error> {
    let saved = OpenOptions::new().lease_length(20).open([table()])?;
    let ulm = [("town", "Ulm")];
    let lease = saved.lease(moment)?;
    lease.txn().insert("people", 1, ulm).commit(moment)?;
    Db::open_at(&saved.session().checkpoint()?, [table()])
}

#[test]
fn it_begins_at_the_last_moment_of_the_world() -> Result<(), Error> {
    for first in [0, 7, FAR] {
        let (db, begun) = (going_on_from(first)?, Instant::now());
        let moment = db.clock()?.now();
        let passed = begun.elapsed().as_millis() as u64;
        assert!(
            (first..=first + passed + 1).contains(&moment),
            "{first} {moment}"
        );
    }
    assert!(people().clock()?.now() < 10_000);
    Ok(())
}

#[test]
fn it_counts_milliseconds_and_never_falls() -> Result<(), Error> {
    let clock = people().clock()?; // which outlives its store
    let before = Instant::now();
    let first = clock.now();
    let (begun, mut last) = (Instant::now(), first);
    while begun.elapsed() < Duration::from_millis(100) {
        let now = clock.now();
        assert!(now >= last);
        last = now;
    }
    let passed = clock.now() - first;
    let most = before.elapsed().as_millis() as u64 + 1;
    assert!((99..=most).contains(&passed), "{passed} of {most}");
    Ok(())
}

#[test]
fn a_store_has_one_clock() -> Result<(), Error> {
    let (db, other) = (people(), people());
    let clocks = thread::scope(|scope| {
        let askers = [(); 8].map(|()| scope.spawn(|| db.clock()));
        askers.map(|it| it.join().unwrap())
    });
    db.lease(FAR)?;
    for clock in clocks {
        assert!(clock?.now() >= FAR);
    }
    assert!(db.session().clock()?.now() >= FAR && other.clock()?.now() < FAR);
    let session = Session::open()?;
    assert_eq!(session.clock().err(), Some(Error::NotOpened));
    assert_eq!(session.behind(0), Err(Error::NotOpened));
    Ok(())
}

#[test]
fn a_saved_world_does_not_wait_for_the_old_moment() -> Result<(), Error> {
    let db = going_on_from(FAR)?;
    let (clock, begun) = (db.clock()?, Instant::now());
    let change = db.change(INDEX, || clock.now())?;
    change.within(Duration::from_secs(20)).complete(|_| {})?;
    // the first version is old, and two are the newest for 20 milliseconds each
    assert!(begun.elapsed() >= Duration::from_millis(40));
    let check = db.check()?;
    assert_eq!((db.lease(clock.now())?.version(), check.rows), (4, 1));
    assert!(check.is_clean());
    Ok(())
}

/// Whether the clock, which was asked for before the call, has come to the moment of the call.
fn follows(db: &Db, call: impl FnOnce(u64) -> Result<(), Error>) -> Result<(), Error> {
    let clock = db.clock()?;
    let ahead = clock.now() + 1_000_000;
    call(ahead)?;
    let now = clock.now();
    assert!((ahead..ahead + 500_000).contains(&now), "{ahead} {now}");
    assert_eq!(db.session().behind(now)?, 0);
    Ok(())
}

#[test]
fn it_follows_each_call_that_sets_the_world_ahead() -> Result<(), Error> {
    let (db, source) = (people(), people());
    follows(&db, |now| db.lease(now).map(drop))?;
    follows(&db, |now| db.line(&format!("lease a at {now}")).map(drop))?;
    follows(&db, |now| {
        source.lease(now)?; // the entry of a lease on the first version
        let entry = source.session().entry(1)?;
        db.session().repeat(&entry)
    })?;
    let wide = OpenOptions::new().lease_length(1 << 32).open([table()])?;
    let lease = wide.lease(0)?;
    follows(&wide, |now| {
        let one = lease.txn().insert("people", 1, ());
        one.commit(now).map(drop)
    })?;
    follows(&wide, |now| {
        let two = lease.txn().insert("people", 2, ());
        two.write(now).map(drop)
    })?;
    let steps = db.plan(&[SchemaChange::add_index("people", "by_town", ["town"])])?;
    follows(&db, |now| db.publish(now, &steps[0]).map(drop))?;
    follows(&db, |now| db.advance(now, 1, 1).map(drop))?;
    let element = db.element("people", "by_town")?;
    follows(&db, |now| db.begin_reorg(now, element, 1).map(drop))?;
    follows(&db, |now| {
        let piece = db.read_piece(element, 0, 1)?.prepare()?;
        piece.commit(now).map(drop)
    })?;
    follows(&db, |now| {
        db.advance(now, 1, 1)?;
        let more = db.change("add column age int on people", || now + 10)?;
        drop(more);
        Ok(())
    })
}

#[test]
fn what_is_refused_sets_nothing_ahead() -> Result<(), Error> {
    let db = OpenOptions::new().furthest_jump(100).open([table()])?;
    db.lease(0)?;
    let clock = db.clock()?;
    assert_eq!(db.lease(FAR).err(), Some(Error::TooFar));
    assert_eq!(db.advance(50, 8, 1000)?, None);
    assert_eq!(db.line(&format!("lease a at {FAR}")), Err(Error::TooFar));
    assert!(clock.now() < 10_000_000);
    Ok(())
}

#[test]
fn a_waiting_step_shows_that_the_clock_is_behind() -> Result<(), Error> {
    let db = going_on_from(1000)?;
    assert_eq!(db.session().behind(0)?, 1000);
    let mut steps = db.change(INDEX, || 990)?;
    assert_eq!((steps.next(), steps.behind()), (Some(Ok(Step::Acted)), 0)); // at the moment 1,000
    let waiting = Some(Ok(Step::Waiting { until: 1020 }));
    for (moment, behind) in [(0, 1000), (999, 1), (1000, 0), (1019, 0)] {
        let mut steps = db.resume(|| moment);
        assert_eq!((steps.next(), steps.behind()), (waiting.clone(), behind));
        assert_eq!(db.session().behind(moment)?, behind);
    }
    let mut first = db.change("add column age int on people", || 5)?;
    assert_eq!((first.behind(), first.next()), (995, waiting));
    assert_eq!(first.behind(), 995);
    Ok(())
}
