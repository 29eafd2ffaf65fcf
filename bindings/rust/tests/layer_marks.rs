//! Transactions over a store of one's own whose answers are lost: each is applied at most once, and what is
//! said of it is so.

mod layer_shared;

use cagzhomul::layer::{Layer, MemoryStore, Store, StoreError};
use cagzhomul::Type::Text;
use cagzhomul::{Error, Query, SchemaChange};
use layer_shared::How::{Down, Gone, Late, Lost, Plain};
use layer_shared::{number, opened, person, row, sound, How, Scripted};
use std::time::Duration;

type Act<'a> = &'a dyn Fn(&Layer<Scripted<'_>>) -> Result<(), Error>;
type Between<'a> = &'a dyn Fn(&Layer<&MemoryStore>) -> Result<(), Error>;

fn add_index() -> [SchemaChange; 1] {
    [SchemaChange::add_index("people", "by_age", ["age"])]
}

/// Does something over a store that answers so; before the second draft something else is done.
fn hand_in<'a>(
    store: &'a MemoryStore,
    script: &[How],
    act: Act<'_>,
    between: Between<'a>,
) -> (Layer<Scripted<'a>>, Result<(), Error>) {
    let other = opened(5, store);
    let mut scripted = Scripted::new(store, script.iter().copied());
    scripted.between = Box::new(move || between(&other).unwrap());
    let db = Layer::new(scripted).unwrap();
    // a store that does not answer at all is not waited for
    let patience = if script.len() < 100 { 60_000 } else { 300 };
    let db = db.patience(Duration::from_millis(patience));
    let done = act(&db);
    sound(&Layer::new(store).unwrap());
    (db, done)
}

fn add_ten<S: Store>(db: &Layer<S>) -> Result<(), Error> {
    db.modify("people", 1, |row| Some([("age", number(row, "age") + 10)]))
}

fn get_one<S: Store>(db: &Layer<S>) -> Result<(), Error> {
    let mut txn = db.txn();
    txn.get("people", 1)?;
    txn.update("people", 2, [("age", 3)]).commit().map(drop)
}

const NOTHING: Between<'static> = &|_| Ok(());

#[test]
fn a_transaction_is_applied_once() {
    let scripts: [&[How]; 8] = [
        &[],
        &[Lost],
        &[Gone],
        &[Late],
        &[Late, Lost],
        &[Gone, Lost, Gone],
        &[Lost, Down],
        &[Late, Down, Down],
    ];
    for script in scripts {
        let store = MemoryStore::new();
        let (db, done) = hand_in(&store, script, &|db| add_ten(db), NOTHING);
        assert_eq!(done, Ok(()), "{script:?}");
        db.store().late_are_refused();
        assert_eq!(number(row(&db, 1).as_ref(), "age"), 11, "{script:?}");
    }
}

#[test]
fn another_comes_between() {
    let scripts: [&[How]; 5] = [&[Late], &[Gone], &[Lost], &[Gone, Gone], &[Late, Lost]];
    for script in scripts {
        let is_lost = script == [Lost];
        let age = if is_lost { 60 } else { 50 };
        let cases: [(Act<'_>, Between<'_>, i64); 3] = [
            (&|db| add_ten(db), &|other| add_ten(other), 21),
            (
                &|db| db.update("people", 1, [("age", 50)]).map(drop),
                &|other| other.update("people", 1, [("age", 60)]).map(drop),
                age,
            ),
            (
                &|db| db.insert("people", 90, [("age", 1)]).map(drop),
                &|other| other.complete(&add_index()),
                1,
            ),
        ];
        for (act, between, age) in cases {
            let store = MemoryStore::new();
            let (db, done) = hand_in(&store, script, act, between);
            assert_eq!(done, Ok(()), "{script:?}");
            db.store().late_are_refused();
            assert_eq!(number(row(&db, 1).as_ref(), "age"), age, "{script:?}");
            let people = db.query(&Query::of("people")).unwrap().len();
            assert_eq!(people, 5 + usize::from(age == 1));
        }
    }
}

/// A refusal is reported only once the draft whose answer was lost cannot be applied any more.
#[test]
fn refused_for_good() {
    type Case<'a> = (Act<'a>, Between<'a>, Error, Between<'a>);
    let cases: [Case<'_>; 3] = [
        (
            &|db| db.insert("people", 90, ()).map(drop),
            &|other| other.insert("people", 90, ()).map(drop),
            Error::Duplicate { operation: 0 },
            &|other| other.delete("people", 90).map(drop),
        ),
        (
            &|db| db.delete("people", 1).map(drop),
            &|other| {
                other.delete("people", 1).ok();
                Ok(())
            },
            Error::NoRow { operation: 0 },
            &|other| other.insert("people", 1, person(1)).map(drop),
        ),
        (
            &|db| get_one(db),
            &|other| other.update("people", 1, [("age", 40)]).map(drop),
            Error::Conflict { row: None },
            &|other| other.update("people", 1, [("age", 1)]).map(drop),
        ),
    ];
    for (act, between, error, back) in cases {
        let store = MemoryStore::new();
        let (db, done) = hand_in(&store, &[Late], act, between);
        assert_eq!(done, Err(error.clone()));
        back(&Layer::new(&store).unwrap()).unwrap();
        db.store().late_are_refused();
        let store = MemoryStore::new();
        let is_insert = error == Error::Duplicate { operation: 0 };
        let between = if is_insert { NOTHING } else { between };
        assert_eq!(hand_in(&store, &[Lost], act, between).1, Ok(()), "{error}");
    }
}

#[test]
fn once_the_mark_is_found_there_are_no_more_drafts() {
    let note = SchemaChange::add_column("people", "note", Text);
    let publish: Between<'_> = &|other| other.complete(std::slice::from_ref(&note));
    let got: Act<'_> = &|db| get_one(db);
    let insert: Act<'_> = &|db| db.insert("people", 90, ()).map(drop);
    for (act, between) in [(got, NOTHING), (insert, NOTHING), (insert, publish)] {
        let store = MemoryStore::new();
        let (db, done) = hand_in(&store, &[Lost], act, between);
        assert_eq!((done, *db.store().drafts.borrow()), (Ok(()), 2));
    }
}

#[test]
fn unknown_is_left_for_a_store_that_does_not_answer() {
    let insert: Act<'_> = &|db| db.insert("people", 90, ()).map(drop);
    let other: Between<'_> = &|other| other.insert("people", 90, ()).map(drop);
    let down = [vec![Lost], vec![Down; 2000]].concat();
    // in the last the draft is refused by its rows, and the answer to what settles it is lost, too
    let settles = vec![Late, Plain, Lost];
    for (script, between) in [
        (vec![Gone; 2000], NOTHING),
        (down, NOTHING),
        (settles, other),
    ] {
        let store = MemoryStore::new();
        let done = hand_in(&store, &script, insert, between).1;
        assert!(
            matches!(done, Err(Error::Store(StoreError::Unknown(_)))),
            "{done:?}"
        );
    }
    let store = MemoryStore::new();
    let done = hand_in(&store, &[Down], insert, NOTHING).1;
    assert!(
        matches!(done, Err(Error::Store(StoreError::Unreachable(_)))),
        "{done:?}"
    );
}
