//! Plans, steps and pieces by typed calls, over the real library. All numbers are worked out by hand.

mod shared;

use cagzhomul::Type::{Bool, Int, Text};
use cagzhomul::{
    retry, Check, Db, Entering, Error, Move, PlannedStep, Progress, Reorganisation, SchemaChange,
    State, Table, Value, Worked,
};
use shared::people;
use std::sync::atomic::{AtomicUsize, Ordering};
use std::thread;

/// by_town enters: it will be element 2, after town.
const BY_TOWN: u32 = 2;

fn index() -> SchemaChange {
    SchemaChange::add_index("people", "by_town", ["town"])
}

fn plan_of(db: &Db, change: SchemaChange) -> Result<PlannedStep, Error> {
    Ok(db.plan(&[change])?.remove(0))
}

/// People 1 to `rows`, and the fill of by_town begun in so many pieces at moment 30; the step that
/// makes it public.
fn filling(db: &Db, rows: i64, pieces: u32) -> Result<PlannedStep, Error> {
    let lease = db.lease(5)?;
    for id in 1..=rows {
        lease
            .txn()
            .insert("people", id, [("town", "Ulm")])
            .commit(5)?;
    }
    let mut steps = db.plan(&[index()])?;
    assert_eq!(db.publish(10, &steps[0])?, 2);
    assert_eq!(db.publish(20, &steps[1])?, 3);
    db.begin_reorg(30, BY_TOWN, pieces)?;
    Ok(steps.remove(2))
}

#[test]
fn a_plan_has_the_fewest_steps() -> Result<(), Error> {
    let db = people();
    let steps = db.plan(&[index()])?;
    let (table, name) = ("people".to_string(), "by_town".to_string());
    let enter = Move::Enter {
        table,
        name,
        what: Entering::Index { columns: vec![1] },
        state: State::DeleteOnly,
    };
    let go = |state| Move::Go {
        element: BY_TOWN,
        state,
    };
    assert_eq!(
        (&steps[0].before[..], &steps[0].moves[..]),
        (&[][..], &[enter][..])
    );
    assert_eq!(
        (&steps[1].before[..], &steps[1].moves[..]),
        (&[][..], &[go(State::WriteOnly)][..])
    );
    let fill = Reorganisation::Fill { element: BY_TOWN };
    assert_eq!(
        (&steps[2].before[..], &steps[2].moves[..]),
        (&[fill][..], &[go(State::Public)][..])
    );
    assert_eq!((db.plan(&[])?, steps.len()), (Vec::new(), 3));
    assert_eq!(db.session().log_length()?, 0);
    Ok(())
}

#[test]
fn columns_enter_together_and_leave() -> Result<(), Error> {
    let db = people();
    let steps = db.plan(&[
        SchemaChange::add_column("people", "age", Int),
        SchemaChange::add_column_with_default("people", "is_new", Bool, false),
    ])?;
    let entering = |kind, default| Entering::Column { kind, default };
    let what = steps[0].moves.iter().map(|it| match it {
        Move::Enter { name, what, .. } => (name.as_str(), what.clone()),
        other => panic!("{other:?}"),
    });
    let wanted = [
        ("age", entering(Int, None)),
        ("is_new", entering(Bool, Some(false.into()))),
    ];
    assert_eq!(what.collect::<Vec<_>>(), wanted);
    let last = db
        .plan(&[SchemaChange::drop_column("people", "town")])?
        .pop();
    let last = last.expect("a drop has steps");
    assert_eq!(last.before, [Reorganisation::Clear { element: 1 }]);
    let (element, state) = (1, State::Absent);
    assert_eq!(last.moves, [Move::Go { element, state }]);
    Ok(())
}

#[test]
fn refusals_of_a_plan() -> Result<(), Error> {
    let indexed = Table::new("people")
        .key("id", Int)
        .column("town", Text)
        .column("age", Int);
    let db = Db::open([indexed.index("by_age", ["age"])])?;
    let long = "x".repeat(1025);
    for (change, error) in [
        (
            SchemaChange::add_index("nobody", "i", ["town"]),
            Error::Unknown,
        ),
        (
            SchemaChange::add_index("people", "i", ["name"]),
            Error::Unknown,
        ),
        (SchemaChange::drop_index("people", "i"), Error::Unknown),
        (SchemaChange::abandon("people", "town"), Error::Unknown),
        (
            SchemaChange::add_column("people", "town", Text),
            Error::NameTaken,
        ),
        (
            SchemaChange::drop_column("people", "age"),
            Error::StillIndexed,
        ),
        (
            SchemaChange::add_column("people", "x".repeat(65), Int),
            Error::Limit,
        ),
        (
            SchemaChange::add_column_with_default("people", "x", Text, &long[..]),
            Error::Limit,
        ),
        (
            SchemaChange::add_column_with_default("people", "x", Int, Value::Null),
            Error::Limit,
        ),
    ] {
        let batch = [SchemaChange::add_column("people", "fine", Int), change];
        assert_eq!(db.plan(&batch), Err(error), "{batch:?}");
    }
    db.publish(10, &plan_of(&db, index())?)?;
    let dropped = SchemaChange::drop_index("people", "by_town");
    assert_eq!(db.plan(&[dropped]), Err(Error::InChange));
    let element = db.element("people", "by_town")?;
    let turned = plan_of(&db, SchemaChange::abandon("people", "by_town"))?;
    assert_eq!((turned.moves, element), (vec![Move::Turn { element }], 4));
    Ok(())
}

#[test]
fn refusals_of_a_step() -> Result<(), Error> {
    let db = people();
    let steps = db.plan(&[index()])?;
    assert_eq!(db.publish(9, &steps[0]), Err(Error::TooEarly { until: 10 }));
    assert_eq!(db.publish(10, &steps[1]), Err(Error::Unknown));
    assert_eq!(db.publish(1 << 63, &steps[0]), Err(Error::MomentTooLarge));
    assert_eq!(db.publish(10, &steps[0]), Ok(2));
    assert_eq!(db.publish(20, &steps[0]), Err(Error::NameTaken));
    assert_eq!(db.publish(20, &steps[2]), Err(Error::NotAdjacent));
    assert_eq!(db.publish(20, &steps[1]), Ok(3));
    let element = BY_TOWN;
    assert_eq!(
        db.publish(30, &steps[2]),
        Err(Error::Unfinished { element })
    );
    let until = 30;
    assert_eq!(
        db.begin_reorg(29, element, 8),
        Err(Error::StillUsed { until })
    );
    assert_eq!(db.begin_reorg(30, 1, 8), Err(Error::NotWanted));
    assert_eq!(db.begin_reorg(30, element, 65), Err(Error::BadCount));
    assert_eq!(db.begin_reorg(30, element, 64), Ok(3));
    assert_eq!(db.begin_reorg(30, element, 8), Err(Error::Begun));
    let other = people();
    let drop = plan_of(&other, SchemaChange::drop_column("people", "town"))?;
    assert_eq!(db.publish(30, &drop), Err(Error::Dependent { element }));
    Ok(())
}

#[test]
fn a_piece_is_read_prepared_and_committed() -> Result<(), Error> {
    let db = people();
    let public = filling(&db, 3, 1)?;
    let far = |ended, left| Progress {
        ended,
        next: 0,
        left,
        all: 3,
    };
    assert_eq!(db.progress(BY_TOWN)?, far(false, 3));
    let (work, late) = (db.read_piece(BY_TOWN, 0, 2)?, db.read_piece(BY_TOWN, 0, 1)?);
    let worked = |place, ended| Worked { place, ended };
    assert_eq!(work.prepare()?.commit(30)?, worked(8, false));
    assert_eq!(db.progress(BY_TOWN)?, far(false, 1));
    assert_eq!(late.prepare()?.commit(30), Err(Error::Moved));
    let rest = db.read_piece(BY_TOWN, 0, 1000)?.prepare()?;
    let lease = db.lease(31)?;
    lease
        .txn()
        .update("people", 3, [("town", "Hof")])
        .commit(31)?;
    assert_eq!(rest.commit(31), Err(Error::Conflict { row: None }));
    let rest = db.read_piece(BY_TOWN, 0, 1000)?.prepare()?;
    assert_eq!(rest.commit(31)?, worked(11, true));
    assert_eq!(db.progress(BY_TOWN)?, far(true, 0));
    assert_eq!(db.read_piece(BY_TOWN, 0, 1).err(), Some(Error::Spent));
    assert_eq!(db.publish(31, &public)?, 4);
    assert_eq!(db.progress(BY_TOWN), Err(Error::NotWanted));
    let clean = Check {
        rows: 3,
        missing: 0,
        extra: 0,
    };
    assert_eq!(db.check()?, clean);
    assert!(db
        .status()?
        .ends_with(r#""log":12,"moment":31,"usable":[3,4],"version":4}"#));
    Ok(())
}

#[test]
fn refusals_of_a_piece() -> Result<(), Error> {
    let db = people();
    let read = |piece, limit| db.read_piece(BY_TOWN, piece, limit).err();
    assert_eq!(
        (read(0, 1), db.progress(BY_TOWN)),
        (Some(Error::NotWanted), Err(Error::NotWanted))
    );
    filling(&db, 1, 1)?;
    assert_eq!(
        (read(1, 1), read(0, 0)),
        (Some(Error::BadPiece), Some(Error::BadCount))
    );
    assert_eq!(
        (read(0, 1001), read(0, 1000)),
        (Some(Error::BadCount), None)
    );
    let early = db.read_piece(BY_TOWN, 0, 1)?.prepare()?;
    assert_eq!(early.commit(1 << 63), Err(Error::MomentTooLarge));
    assert_eq!(db.progress(BY_TOWN)?.left, 1);
    Ok(())
}

#[test]
fn a_piece_goes_with_its_reorganisation() -> Result<(), Error> {
    let db = people();
    filling(&db, 3, 3)?;
    let read = |piece| db.read_piece(BY_TOWN, piece, 1)?.prepare();
    let (second, third) = (read(1)?, read(2)?);
    let steps = db.plan(&[SchemaChange::abandon("people", "by_town")])?;
    db.publish(30, &steps[0])?;
    assert_eq!(second.commit(30), Err(Error::NotWanted));
    let element = BY_TOWN;
    let clear = [Reorganisation::Clear { element }];
    let last = steps
        .iter()
        .position(|step| step.before == clear)
        .expect("by_town is cleared");
    for (step, now) in steps[1..last].iter().zip([40, 50, 60]) {
        db.publish(now, step)?;
    }
    db.begin_reorg(100, element, 1)?;
    assert_eq!(third.commit(100), Err(Error::WrongElement));
    assert!(
        db.read_piece(element, 0, 1000)?
            .prepare()?
            .commit(100)?
            .ended
    );
    db.publish(100, &steps[last])?;
    assert_eq!(db.element("people", "by_town"), Err(Error::Unknown));
    assert!(db.check()?.is_clean());
    Ok(())
}

#[test]
fn threads_work_pieces_while_rows_change() -> Result<(), Error> {
    let db = people();
    let public = filling(&db, 200, 8)?;
    let (next, lease) = (AtomicUsize::new(0), db.lease(30)?);
    let work = |piece| -> Result<(), Error> {
        while !retry(1000, || match db.read_piece(BY_TOWN, piece, 7) {
            Err(Error::Spent) => Ok(true),
            read => Ok(read?.prepare()?.commit(30)?.ended),
        })? {}
        Ok(())
    };
    thread::scope(|scope| {
        let workers = [0, 1, 2].map(|_| {
            scope.spawn(|| loop {
                match next.fetch_add(1, Ordering::Relaxed) {
                    piece @ 0..8 => work(piece as u32)?,
                    _ => return Ok::<_, Error>(()),
                }
            })
        });
        for id in 1..=200 {
            let change = || {
                lease
                    .txn()
                    .update("people", id, [("town", "Hof")])
                    .commit(30)
            };
            retry(1000, change)?;
        }
        let mut workers = workers.into_iter();
        workers.try_for_each(|worker| worker.join().expect("no worker panics"))
    })?;
    assert!(db.progress(BY_TOWN)?.ended);
    assert_eq!(db.publish(30, &public)?, 4);
    let clean = Check {
        rows: 200,
        missing: 0,
        extra: 0,
    };
    assert_eq!(db.check()?, clean);
    Ok(())
}
