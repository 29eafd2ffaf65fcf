//! What ends a change before it is complete, and what is told of it, over the real library. All numbers
//! are worked out by hand.

mod shared;

use cagzhomul::{Db, Error, NotCompleted, OpenOptions, Report, Step, Work};
use shared::{people, table};
use std::cell::Cell;
use std::sync::atomic::{AtomicBool, Ordering};
use std::thread;
use std::time::{Duration, Instant};

const INDEX: &str = "add index by_town on people (town)";
const AGE: &str = "add column age int default 5 on people";
const NOW: Duration = Duration::ZERO;

/// What was left of a change that was not completed.
fn left(ended: Result<(), Error>) -> NotCompleted {
    match ended {
        Err(Error::NotCompleted(left)) => *left,
        other => panic!("{other:?}"),
    }
}

fn names(left: &NotCompleted) -> Vec<&str> {
    left.elements.iter().map(|it| it.name.as_str()).collect()
}

/// The steps that a change still has, by a clock that is set forward at each wait.
fn rest(db: &Db, now: u64) -> Result<Vec<Step>, Error> {
    let now = Cell::new(now);
    let steps = db.resume(|| now.get());
    let steps = steps.inspect(|step| {
        if let Ok(Step::Waiting { until }) = step {
            now.set(*until);
        }
    });
    steps.collect()
}

#[test]
fn so_much_time_ends_it() -> Result<(), Error> {
    let (db, begun) = (people(), Instant::now());
    let within = Duration::from_millis(50);
    let left = left(db.change(INDEX, || 10)?.within(within).complete(|_| {}));
    assert!(begun.elapsed() >= within);
    assert_eq!((left.within, left.behind), (Some(within), 0));
    assert_eq!((names(&left), &left.waiting), (vec!["by_town"], &None));
    let told = "not completed after 50ms: people.by_town is delete_only; `resume` goes on";
    assert_eq!(Error::NotCompleted(Box::new(left)).to_string(), told);
    // the second version, and then the begin, a piece that finds no row, and the last version
    let (acted, until) = (Step::Acted, |until| Step::Waiting { until });
    let due = [until(20), acted, until(30), acted, acted, acted];
    assert_eq!(rest(&db, 10)?, due);
    Ok(())
}

#[test]
fn a_change_that_waits_for_its_first_step_is_told() -> Result<(), Error> {
    let db = people();
    let left = left(db.change(AGE, || 0)?.within(NOW).complete(|_| {}));
    assert_eq!((names(&left), left.waiting.as_deref()), (vec![], Some(AGE)));
    let told = "not completed after 0ns: `add column age int default 5 on people` waits for its \
                first step; `resume` goes on";
    assert_eq!(left.to_string(), told);
    let other = db.complete(INDEX, || 0);
    assert!(matches!(other, Err(Error::StillWaiting { .. })));
    Ok(())
}

#[test]
fn a_function_cancels_it() -> Result<(), Error> {
    let (db, mut asked) = (people(), 0);
    let fifth = || {
        asked += 1;
        asked == 5
    };
    let change = db.change(AGE, || 10)?.cancel(fifth);
    let first = left(change.complete(|_| {}));
    assert_eq!((names(&first), first.within), (vec!["age"], None));
    let told = "cancelled: people.age is delete_only; `resume` goes on";
    assert_eq!(first.to_string(), told);
    let is_set = AtomicBool::new(true);
    let is_ending = || is_set.load(Ordering::Relaxed);
    let again = left(db.resume(|| 10).cancel(is_ending).complete(|_| {}));
    assert_eq!((again, asked), (first, 5));
    let drop = db.change("drop column town on people", || 20)?;
    let told = "not completed after 0ns: people.town is delete_only and dropped, people.age is \
                delete_only; `resume` goes on";
    assert_eq!(left(drop.within(NOW).complete(|_| {})).to_string(), told);
    Ok(())
}

#[test]
fn another_thread_cancels_a_wait() -> Result<(), Error> {
    let (db, is_set) = (people(), AtomicBool::new(false));
    let ended = thread::scope(|scope| {
        let waits = scope.spawn(|| {
            let change = db.change(INDEX, || 10)?; // the clock stands still
            let change = change.cancel(|| is_set.load(Ordering::Relaxed));
            change.complete(|_| {})
        });
        thread::sleep(Duration::from_millis(30));
        assert!(!waits.is_finished());
        is_set.store(true, Ordering::Relaxed);
        waits.join().unwrap()
    });
    assert_eq!(left(ended).within, None);
    Ok(())
}

#[test]
fn what_is_complete_is_not_ended() -> Result<(), Error> {
    let db = people();
    let mut none = db.resume(|| 5).within(NOW).cancel(|| true);
    assert_eq!(none.next(), None);
    let steps = db.change("add column age int on people", || 10)?;
    assert_eq!(db.advance(20, 8, 1000)?, Some(Step::Acted));
    let steps: Result<Vec<Step>, Error> = steps.within(NOW).collect();
    assert_eq!(steps?, [Step::Acted]);
    Ok(())
}

#[test]
fn an_ended_change_has_no_more_steps() -> Result<(), Error> {
    let db = people();
    let mut steps = db.change(INDEX, || 10)?.within(NOW);
    assert_eq!(steps.next(), Some(Ok(Step::Acted)));
    assert!(matches!(steps.next(), Some(Err(Error::NotCompleted(_)))));
    assert_eq!(steps.next(), None);
    Ok(())
}

#[test]
fn a_clock_behind_the_world_is_told() -> Result<(), Error> {
    let db = people();
    db.lease(1000)?;
    let change = db.change(INDEX, || 4)?; // at the moment 1,000
    let left = left(change.within(Duration::from_millis(10)).complete(|_| {}));
    assert_eq!(left.behind, 996);
    let told = "not completed after 10ms: people.by_town is delete_only, the clock is 996 moments \
                behind the world's last one; `resume` goes on";
    assert_eq!(left.to_string(), told);
    Ok(())
}

type Told = (String, String, u64, u64);

fn short(it: &Report) -> Told {
    let state = format!("{} {:?}", it.element.name, it.element.state);
    (state, format!("{:?}", it.work), it.done, it.of)
}

/// What a change tells, three rows in pieces of two items, by a clock that comes to the next ten each time.
fn told(db: &Db, change: &str, moment: &Cell<u64>) -> Result<Vec<Told>, Error> {
    let clock = || {
        moment.set(moment.get() + 10);
        moment.get()
    };
    let mut told = Vec::new();
    let steps = db.change(change, clock)?.pieces(1).limit(2);
    steps.complete(|it| told.push(short(it)))?;
    Ok(told)
}

#[test]
fn what_was_done_is_told() -> Result<(), Error> {
    let (db, moment) = (people(), Cell::new(0));
    let txn = db.runs(|| 0).write(|txn| {
        let one = txn.insert("people", 1, ()).insert("people", 2, ());
        one.insert("people", 3, ())
    });
    assert_eq!(txn?.place, 2);
    let row = |state: &str, work: Work, done, of| {
        let (state, work) = (format!("age {state}"), format!("{work:?}"));
        (state, work, done, of)
    };
    let added = [
        row("DeleteOnly", Work::Publish, 1, 1),
        row("WriteOnly", Work::Publish, 1, 1),
        row("WriteOnly", Work::Fill, 0, 3),
        row("WriteOnly", Work::Fill, 2, 3),
        row("WriteOnly", Work::Fill, 3, 3),
        row("Public", Work::Publish, 1, 1),
    ];
    assert_eq!(told(&db, AGE, &moment)?, added);
    let dropped = told(&db, "drop column age on people", &moment)?;
    let due = [
        row("WriteOnly", Work::Publish, 1, 1),
        row("DeleteOnly", Work::Publish, 1, 1),
        row("DeleteOnly", Work::Clear, 0, 3),
    ];
    assert_eq!(dropped[..3], due);
    let gone = row("Absent", Work::Publish, 1, 1);
    assert_eq!(dropped.last(), Some(&gone));
    let elements = db.session().schema()?.elements;
    assert_eq!((elements.len(), elements[0].name.as_str()), (1, "town"));
    Ok(())
}

#[test]
fn writers_go_on_while_it_is_completed() -> Result<(), Error> {
    let db = OpenOptions::new().lease_length(20).open([table()])?;
    let (clock, begun) = (db.clock()?, Instant::now());
    let rows = thread::scope(|scope| {
        let completed = scope.spawn(|| {
            let change = db.change(INDEX, || clock.now())?;
            change.within(Duration::from_secs(60)).complete(|_| {})
        });
        let mut rows = 0;
        while !completed.is_finished() {
            rows += 1;
            db.write(|txn| txn.insert("people", rows, [("town", "Ulm")]))?;
        }
        completed.join().unwrap().map(|()| rows)
    })?;
    // three versions, each 20 milliseconds after the one before
    assert!(begun.elapsed() >= Duration::from_millis(60));
    let check = db.check()?;
    assert_eq!((check.rows, check.is_clean()), (rows as u64, true));
    assert_eq!(db.lease(clock.now())?.version(), 4);
    Ok(())
}
