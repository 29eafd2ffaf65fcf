//! Stores that were opened with a furthest jump, over the real library. All numbers are worked out by
//! hand.

mod shared;

use cagzhomul::{
    Db, Error, KeyRange, Lease, OpenOptions, Query, SchemaChange, Session, Step, Type,
};
use shared::{people, plain, table};

const JUMP: u64 = 100;
/// by_town enters: it will be element 2, after town.
const BY_TOWN: u32 = 2;
const AGE: &str = "add column age int on people";
const ALL: &str = "select * from people";

fn open(furthest_jump: u64) -> Result<Db, Error> {
    let options = OpenOptions::new().furthest_jump(furthest_jump);
    options.open([table()])
}

/// A store with a row, in which the fill of by_town has begun at the moment 30.
fn filling() -> Result<Db, Error> {
    let db = open(JUMP)?;
    let lease = db.lease(5)?;
    lease
        .txn()
        .insert("people", 1, [("town", "Ulm")])
        .commit(5)?;
    drop(lease);
    let steps = db.plan(&[SchemaChange::add_index("people", "by_town", ["town"])])?;
    db.publish(10, &steps[0])?;
    db.publish(20, &steps[1])?;
    db.begin_reorg(30, BY_TOWN, 1)?;
    Ok(db)
}

/// How a store stands, and all that it holds.
fn state(db: &Db) -> Result<(String, Vec<u8>), Error> {
    Ok((db.status()?, db.session().checkpoint()?))
}

/// A call at a moment, of a store and of a lease that it has granted.
type Call = fn(&Db, &Lease<'_>, u64) -> Result<(), Error>;

/// The calls of a store.
const OF_STORES: [(&str, Call); 13] = [
    ("lease", |db, _, now| db.lease(now).map(drop)),
    ("query", |db, _, now| db.query(now, ALL).map(drop)),
    ("run", |db, _, now| {
        let runs = db.runs(|| now);
        runs.run(|txn| txn.get("people", 1).map(drop))
    }),
    ("write", |db, _, now| {
        let runs = db.runs(|| now);
        runs.write(|txn| txn.insert("people", 2, ())).map(drop)
    }),
    ("modify", |db, _, now| {
        let hof = |_: Option<&cagzhomul::Row>| Some([("town", "Hof")]);
        db.runs(|| now).modify("people", 1, hof).map(drop)
    }),
    ("change", |db, _, now| db.change(AGE, || now).map(drop)),
    ("complete", |db, _, now| {
        let mut next = now;
        let clock = || {
            let now = next;
            next = next.saturating_add(10);
            now
        };
        db.complete(AGE, clock)
    }),
    ("resume", |db, _, now| {
        db.resume(|| now).next().transpose().map(drop)
    }),
    ("advance", |db, _, now| db.advance(now, 8, 1000).map(drop)),
    ("due_entry", |db, _, now| {
        db.due_entry(now, 8, 1000).map(drop)
    }),
    ("publish", |db, _, now| {
        let steps = db.plan(&[SchemaChange::add_column("people", "age", Type::Int)])?;
        db.publish(now, &steps[0]).map(drop)
    }),
    ("commit of a piece", |db, _, now| {
        let piece = db.read_piece(BY_TOWN, 0, 1000)?.prepare()?;
        piece.commit(now).map(drop)
    }),
    ("line", |db, _, now| {
        db.line(&format!("lease a at {now}")).map(drop)
    }),
];

/// The calls under a lease.
const UNDER_LEASES: [(&str, Call); 9] = [
    ("write", |_, lease, now| {
        lease.txn().insert("people", 2, ()).write(now).map(drop)
    }),
    ("commit", |_, lease, now| {
        lease.txn().insert("people", 2, ()).commit(now).map(drop)
    }),
    ("entry", |_, lease, now| {
        let mut txn = lease.txn().insert("people", 2, ()).prepare()?;
        txn.entry(now).map(drop)
    }),
    ("commit after an entry", |_, lease, now| {
        let mut txn = lease.txn().insert("people", 2, ()).prepare()?;
        txn.entry(30)?;
        txn.commit(now).map(drop)
    }),
    ("modify", |_, lease, now| {
        let hof = |_: Option<&cagzhomul::Row>| Some([("town", "Hof")]);
        lease.modify("people", 1, hof, now).map(drop)
    }),
    ("query", |_, lease, now| lease.query(now, ALL).map(drop)),
    ("find", |_, lease, now| {
        lease.find(now, &Query::of("people")).map(drop)
    }),
    ("page", |_, lease, now| {
        let page = lease.page(now, &Query::of("people"), &KeyRange::all(), 1);
        page.map(drop)
    }),
    ("snapshot", |_, lease, now| lease.snapshot(now).map(drop)),
];

/// The last entry is of the moment 30, so 131 is too far, and 130 is not.
#[test]
fn a_moment_that_is_too_far_changes_nothing() -> Result<(), Error> {
    let begin: Call = |db, _, now| db.begin_reorg(now, BY_TOWN, 1).map(drop);
    let ended = Error::LeaseEnded {
        until: 40,
        now: 130,
    };
    let of_stores = OF_STORES.map(|call| (call, Ok(())));
    let under_leases = UNDER_LEASES.map(|call| (call, Err(ended.clone())));
    let calls = of_stores.into_iter().chain(under_leases);
    let begun = (("begin_reorg", begin), Err(Error::Begun));
    for ((name, call), at_the_furthest) in calls.chain([begun]) {
        let db = filling()?;
        let lease = db.lease(30)?;
        let before = state(&db)?;
        for now in [131, 1 << 62] {
            assert_eq!(call(&db, &lease, now), Err(Error::TooFar), "{name} {now}");
        }
        if name != "line" {
            // beyond 2^62, too, it is the first refusal
            assert_eq!(call(&db, &lease, u64::MAX), Err(Error::TooFar), "{name}");
        }
        assert_eq!(state(&db)?, before, "{name}");
        assert_eq!(call(&db, &lease, 130), at_the_furthest, "{name}");
    }
    Ok(())
}

#[test]
fn before_the_first_entry_no_moment_is_too_far() -> Result<(), Error> {
    let db = open(0)?;
    assert_eq!(db.advance(u64::MAX, 8, 1000), Err(Error::MomentTooLarge));
    assert_eq!(db.lease(1_000_000)?.until(), 1_000_010);
    assert_eq!(db.lease(1_000_001).err(), Some(Error::TooFar));
    for now in [0, 999_999, 1_000_000] {
        assert_eq!(db.lease(now)?.granted(), 1_000_000);
    }
    Ok(())
}

#[test]
fn with_no_jump_each_later_moment_is_too_far() -> Result<(), Error> {
    let db = open(0)?;
    db.lease(5)?; // before the first entry no moment is too far
    for now in [6, 15, 1 << 62] {
        assert_eq!(db.lease(now).err(), Some(Error::TooFar), "{now}");
    }
    for now in [5, 0] {
        assert_eq!(db.lease(now)?.granted(), 5);
    }
    assert_eq!(db.session().log_length()?, 3);
    let saved = db.session().checkpoint()?;
    let later = OpenOptions::new().furthest_jump(0).session_at(&saved)?;
    assert_eq!(later.advance(6, 8, 1000), Err(Error::TooFar));
    assert_eq!(later.advance(5, 8, 1000), Ok(None));
    Ok(())
}

#[test]
fn without_a_furthest_jump_no_moment_is_too_far() -> Result<(), Error> {
    for db in [people(), open(u64::MAX)?] {
        db.lease(0)?;
        assert_eq!(db.lease(1 << 62)?.granted(), 1 << 62);
    }
    let session = Session::open()?;
    for line in ["table t (id int key)", "open", "lease a at 0"] {
        session.line(line)?;
    }
    let reply = session.line("lease b at 1000000")?;
    assert_eq!(reply, "ok lease 1 1000000 1000010\n");
    Ok(())
}

#[test]
fn options_have_a_lease_length_and_a_furthest_jump() -> Result<(), Error> {
    let options = OpenOptions::default().lease_length(20).furthest_jump(7);
    let db = options.open([table()])?;
    assert_eq!(db.lease(5)?.until(), 25);
    assert_eq!(db.lease(13).err(), Some(Error::TooFar));
    let none = OpenOptions::new().lease_length(0).open([table()]);
    assert_eq!(none.err(), Some(Error::BadLength));
    let both = OpenOptions::new().open([table(), table()]);
    assert_eq!(both.err().map(plain), Some(Error::BadTable(None)));
    let bytes = OpenOptions::new().session_at(b"");
    assert_eq!(bytes.err(), Some(Error::BadCheckpoint));
    Ok(())
}

#[test]
fn an_entry_of_a_moment_that_is_too_far_is_not_repeated() -> Result<(), Error> {
    let (first, near, nearer) = (people(), open(101)?, open(100)?);
    for now in [5, 105, 206] {
        first.lease(now)?;
    }
    let entry = |place| first.session().entry(place);
    for place in 1..=3 {
        near.session().repeat(&entry(place)?)?;
    }
    for place in 1..=2 {
        nearer.session().repeat(&entry(place)?)?;
    }
    let before = state(&nearer)?;
    assert_eq!(nearer.session().repeat(&entry(3)?), Err(Error::NotNext));
    assert_eq!(state(&nearer)?, before);
    assert_eq!(nearer.lease(205)?.place(), 3);
    Ok(())
}

#[test]
fn lines_of_moments_that_are_too_far_have_no_reply() -> Result<(), Error> {
    let db = open(JUMP)?;
    assert_eq!(db.line("lease a at 5")?, "ok lease 1 5 15\n");
    let before = state(&db)?;
    for line in [
        "lease b at 106",
        "query a at 106: select * from people",
        "txn a at 106: insert people (1)",
        "publish at 106: add column age int on people",
    ] {
        assert_eq!(db.line(line), Err(Error::TooFar), "{line}");
    }
    assert_eq!(state(&db)?, before);
    assert_eq!(db.line("txn a at 6: insert people (1)")?, "ok done 2\n");
    assert_eq!(db.line("lease b at 106")?, "ok lease 1 106 116\n");
    Ok(())
}

#[test]
fn forks_keep_it_and_checkpoints_do_not() -> Result<(), Error> {
    let db = open(JUMP)?;
    db.lease(5)?;
    let fork = db.session().fork()?;
    for session in [&fork, &fork.fork()?] {
        assert_eq!(session.advance(106, 8, 1000), Err(Error::TooFar));
        assert_eq!(session.line("lease a at 106"), Err(Error::TooFar));
        assert_eq!(session.line("lease a at 105")?, "ok lease 1 105 115\n");
    }
    let saved = db.session().checkpoint()?;
    assert_eq!(Db::open_at(&saved, [table()])?.lease(106)?.granted(), 106);
    assert_eq!(Session::open_at(&saved)?.advance(106, 8, 1000), Ok(None));
    let options = OpenOptions::new().furthest_jump(3);
    let later = options.open_at(&saved, [table()])?;
    assert_eq!(later.lease(9).err(), Some(Error::TooFar));
    assert_eq!(later.lease(8)?.until(), 18);
    let session = options.session_at(&saved)?;
    assert_eq!(session.advance(9, 8, 1000), Err(Error::TooFar));
    assert_eq!(session.advance(8, 8, 1000), Ok(None));
    Ok(())
}

#[test]
fn a_change_that_waits_is_kept() -> Result<(), Error> {
    let db = open(JUMP)?;
    db.lease(0)?;
    drop(db.change(AGE, || 3)?); // until 10
    assert_eq!(db.advance(101, 8, 1000), Err(Error::TooFar));
    assert_eq!(db.due_entry(101, 8, 1000), Err(Error::TooFar));
    assert_eq!(db.session().log_length()?, 1);
    assert_eq!(db.advance(10, 8, 1000)?, Some(Step::Acted));
    Ok(())
}
