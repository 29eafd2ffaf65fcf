//! How long the lock of a store is kept from others beside calls whose time grows with the rows.

use cagzhomul::{Db, Error, KeyRange, Query, Table, Type};
use std::thread;
use std::time::{Duration, Instant};

const ROWS: i64 = 20_000;

fn store() -> Result<Db, Error> {
    let people = Table::new("people")
        .key("id", Type::Int)
        .column("town", Type::Text);
    let db = Db::open([people])?;
    let lease = db.lease(0)?;
    for first in (0..ROWS).step_by(50) {
        let rows = first..first + 50;
        let txn = rows.fold(lease.txn(), |txn, row| {
            txn.insert("people", row, [("town", "Ulm")])
        });
        txn.commit(0)?;
    }
    drop(lease);
    Ok(db)
}

/// How long a call takes, and the longest that another thread waits for the store meanwhile.
fn waited(db: &Db, call: &(dyn Fn() -> Result<(), Error> + Sync)) -> (Duration, Duration) {
    thread::scope(|scope| {
        let begun = Instant::now();
        let worker = scope.spawn(call);
        let mut longest = Duration::ZERO;
        while !worker.is_finished() {
            let asked = Instant::now();
            db.session().log_length().expect("it is open");
            longest = longest.max(asked.elapsed());
        }
        let answer = worker.join().expect("it ends");
        answer.expect("it is accepted");
        (begun.elapsed(), longest)
    })
}

#[test]
fn no_call_keeps_others_waiting_for_as_long_as_it_takes() -> Result<(), Error> {
    let db = store()?;
    let lease = db.lease(0)?;
    let in_bonn = Query::of("people").equal("town", "Bonn");
    let calls: [(&str, &(dyn Fn() -> Result<(), Error> + Sync)); 5] = [
        ("query without an index", &|| {
            db.query(0, &in_bonn).map(drop)
        }),
        ("find all", &|| {
            lease.find(0, &Query::of("people")).map(drop)
        }),
        ("page", &|| {
            lease.page(0, &in_bonn, &KeyRange::all(), 1).map(drop)
        }),
        ("check", &|| db.check().map(drop)),
        ("checkpoint", &|| db.session().checkpoint().map(drop)),
    ];
    for (name, call) in calls {
        // a busy machine may hold any thread back, so the best of some tries counts
        let tries: Vec<_> = (0..5).map(|_| waited(&db, call)).collect();
        let is_short = |(taken, longest): &(Duration, Duration)| *longest < *taken / 4;
        assert!(tries.iter().any(is_short), "{name}: {tries:?}");
    }
    Ok(())
}
