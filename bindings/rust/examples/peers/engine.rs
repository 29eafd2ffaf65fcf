//! The engine, by typed transactions, and pieces that workers prepare without the store's lock.

use crate::{Measured, VALUES};
use cagzhomul::Type::Int;
use cagzhomul::{
    retry, Check, Db, Error, Lease, Receipt, Reorganisation, SchemaChange, Table, Worked,
};
use std::sync::atomic::{AtomicI64, AtomicU32, AtomicU64, Ordering};
use std::thread;
use std::time::Instant;

/// The numbers of `load`: of pieces, of workers, and of items that are worked at once.
const PIECES: u32 = 64;
const WORKERS: usize = 3;
const LIMIT: u32 = 1000;

/// What the threads share.
struct Run {
    db: Db,
    rows: i64,
    /// The next row to insert.
    next: AtomicI64,
    /// A clock that is set forward when a step has to wait, so that nothing waits.
    clock: AtomicU64,
}

impl Run {
    fn now(&self) -> u64 {
        self.clock.load(Ordering::Relaxed)
    }

    fn insert(&self, lease: &Lease<'_>, key: i64) -> Result<Receipt, Error> {
        retry(usize::MAX, || {
            let txn = lease.txn().insert("t", key, [("a", key % VALUES)]);
            txn.commit(self.now())
        })
    }

    /// Inserts the rows that it draws, under a new lease whenever the last one has ended.
    fn insert_rows(&self) -> Result<(), Error> {
        let mut lease = self.db.lease(self.now())?;
        loop {
            let key = self.next.fetch_add(1, Ordering::Relaxed);
            if key >= self.rows {
                return Ok(());
            }
            while let Err(error) = self.insert(&lease, key) {
                match error {
                    Error::LeaseEnded { .. } => lease = self.db.lease(self.now())?,
                    other => return Err(other),
                }
            }
        }
    }

    /// What comes of a call once its moment has come.
    fn in_time<T>(&self, mut call: impl FnMut(u64) -> Result<T, Error>) -> Result<T, Error> {
        loop {
            match call(self.now()) {
                Err(Error::TooEarly { until } | Error::StillUsed { until }) => {
                    self.clock.fetch_max(until, Ordering::Relaxed);
                }
                ended => return ended,
            }
        }
    }

    fn add_index(&self) -> Result<(), Error> {
        for step in self.db.plan(&[SchemaChange::add_index("t", "i", ["a"])])? {
            for work in &step.before {
                self.reorganise(*work)?;
            }
            self.in_time(|now| self.db.publish(now, &step))?;
        }
        Ok(())
    }

    /// Begins a reorganisation, and ends it by workers that draw its pieces.
    fn reorganise(&self, work: Reorganisation) -> Result<(), Error> {
        let (Reorganisation::Fill { element } | Reorganisation::Clear { element }) = work;
        self.in_time(|now| self.db.begin_reorg(now, element, PIECES))?;
        let next = AtomicU32::new(0);
        at_once(WORKERS, || loop {
            match next.fetch_add(1, Ordering::Relaxed) {
                piece @ 0..PIECES => self.work(element, piece)?,
                _ => return Ok(()),
            }
        })
    }

    /// Works a piece up to its end.
    fn work(&self, element: u32, piece: u32) -> Result<(), Error> {
        loop {
            let read = match self.db.read_piece(element, piece, LIMIT) {
                Err(Error::Spent) => return Ok(()),
                read => read?,
            };
            match read.prepare()?.commit(self.now()) {
                Ok(Worked { ended: true, .. }) => return Ok(()),
                Ok(_) | Err(Error::Conflict { .. }) => {}
                Err(error) => return Err(error),
            }
        }
    }
}

/// Does the same in so many threads.
fn at_once(threads: usize, work: impl Fn() -> Result<(), Error> + Sync) -> Result<(), Error> {
    thread::scope(|scope| {
        let begun: Vec<_> = (0..threads).map(|_| scope.spawn(&work)).collect();
        let mut begun = begun.into_iter();
        begun.try_for_each(|thread| thread.join().expect("no thread panics"))
    })
}

fn measure(rows: i64, threads: usize) -> Result<(std::time::Duration, Check), Error> {
    let run = Run {
        db: Db::open([Table::new("t").key("id", Int).column("a", Int)])?,
        rows,
        next: AtomicI64::new(0),
        clock: AtomicU64::new(0),
    };
    let begun = Instant::now();
    thread::scope(|scope| {
        let writers = scope.spawn(|| at_once(threads, || run.insert_rows()));
        run.add_index()?;
        writers.join().expect("no thread panics")
    })?;
    Ok((begun.elapsed(), run.db.check()?))
}

/// The time of so many rows by so many threads.
pub(crate) fn run(rows: i64, threads: usize) -> Measured {
    let (taken, check) = measure(rows, threads).map_err(|error| error.to_string())?;
    match check.is_clean() && check.rows == rows as u64 {
        true => Ok(taken),
        false => Err(format!("{check:?}")),
    }
}
