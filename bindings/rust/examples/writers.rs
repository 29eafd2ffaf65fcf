//! Four threads insert rows by typed transactions while an index is added; then all is audited.
//! What it prints does not depend on how the threads are scheduled.

use cagzhomul::Type::{Int, Text};
use cagzhomul::{Db, Error, Query, Step, Table};
use std::sync::atomic::{AtomicU64, Ordering};
use std::thread;

const WRITERS: u64 = 4;
const ROWS: u64 = 4_000;
const TOWNS: [&str; 3] = ["Ulm", "Bonn", "Hof"];

/// A clock that is set forward when the change has to wait, so that the example need not.
static CLOCK: AtomicU64 = AtomicU64::new(5);
/// How many rows the writers have inserted.
static INSERTED: AtomicU64 = AtomicU64::new(0);

fn now() -> u64 {
    CLOCK.load(Ordering::Relaxed)
}

/// Inserts every fourth row, under leases that the store takes: a new one whenever the last has ended.
fn write_rows(db: &Db, writer: u64) -> Result<(), Error> {
    let runs = db.runs(now);
    for id in (writer..ROWS).step_by(WRITERS as usize) {
        let town = TOWNS[id as usize % TOWNS.len()];
        runs.write(|txn| txn.insert("people", id as i64, [("town", town)]))?;
        INSERTED.fetch_add(1, Ordering::Relaxed);
    }
    Ok(())
}

/// Adds the index. At each wait a quarter of the rows is inserted before the clock is set forward,
/// so that transactions run under every version; `is_idle` is whether no more rows will come.
fn add_index(db: &Db, is_idle: impl Fn() -> bool) -> Result<(), Error> {
    let mut due = 0;
    let change = db.change("add index by_town on people (town)", now)?;
    for step in change.limit(100) {
        if let Step::Waiting { until } = step? {
            due += ROWS / 4;
            while INSERTED.load(Ordering::Relaxed) < due && !is_idle() {
                thread::yield_now();
            }
            CLOCK.fetch_max(until, Ordering::Relaxed);
        }
    }
    Ok(())
}

fn main() -> Result<(), Error> {
    let people = Table::new("people").key("id", Int).column("town", Text);
    let db = Db::open([people])?;
    let write = |writer| write_rows(&db, writer);
    thread::scope(|scope| {
        let writers = [0, 1, 2, 3].map(|writer| scope.spawn(move || write(writer)));
        add_index(&db, || writers.iter().all(|writer| writer.is_finished()))?;
        let mut writers = writers.into_iter();
        writers.try_for_each(|writer| writer.join().expect("no writer panics"))
    })?;
    let lease = db.lease(now())?;
    println!("version {}", lease.version());
    for town in TOWNS {
        let of_town = Query::of("people").equal("town", town);
        println!("{} rows of {town}", lease.find(now(), &of_town)?.len());
    }
    print!("{}", db.line("check")?);
    Ok(())
}
