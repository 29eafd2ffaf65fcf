//! Schema changes over a store of one's own, in memory: operators that end in the middle, several at
//! once, answers that are lost, small drafts, and writers beside them.

mod layer_shared;

use cagzhomul::layer::{Act, Acts, Layer, MemoryStore, Store, StoreError};
use cagzhomul::Type::{Int, Text};
use cagzhomul::{Error, Schema, SchemaChange, State};
use layer_shared::How::{Gone, Late, Lost, Plain};
use layer_shared::{change_beside_writers, end, opened, sound, Dice, Dropping, Scripted, Small};
use std::collections::BTreeSet;

fn by_town() -> SchemaChange {
    SchemaChange::add_index("people", "by_town", ["town"])
}

fn rank() -> SchemaChange {
    SchemaChange::add_column_with_default("people", "rank", Int, 7)
}

fn drop_column(name: &str) -> SchemaChange {
    SchemaChange::drop_column("people", name)
}

/// The elements of a schema by name, with whether they are public.
fn elements(schema: &Schema) -> BTreeSet<(String, String, bool)> {
    let elements = schema.elements.iter();
    elements
        .map(|it| (it.table.clone(), it.name.clone(), it.state == State::Public))
        .collect()
}

/// Takes so many acts, with writes between, and says how many there were.
fn take<S: Store>(acts: &mut Acts<'_, S>, most: usize, store: &MemoryStore) -> usize {
    let mut count = 0;
    for act in acts.take(most) {
        act.unwrap();
        count += 1;
        let db = Layer::new(store).unwrap();
        db.modify("people", count as i64 % 30, |_| {
            Some([("age", count as i64)])
        })
        .unwrap();
        sound(&db);
    }
    count
}

/// Programs end after each number of acts, and others go on: in the end all is complete, and at no time
/// anything is wrong.
#[test]
fn operators_that_end_in_the_middle() {
    let leaving = [
        SchemaChange::drop_index("people", "by_town"),
        drop_column("town"),
    ];
    let batches: [[Vec<SchemaChange>; 2]; 5] = [
        [vec![by_town()], vec![]],
        [vec![rank()], vec![]],
        [
            vec![SchemaChange::add_column("people", "note", Text)],
            vec![drop_column("note")],
        ],
        [vec![by_town(), rank()], leaving.to_vec()],
        [
            vec![
                rank(),
                SchemaChange::add_index("people", "by_rank", ["rank"]),
            ],
            vec![],
        ],
    ];
    for (at, batch) in batches.iter().enumerate() {
        let whole = opened(0, MemoryStore::new());
        batch.iter().for_each(|it| whole.complete(it).unwrap());
        for stop in [1, 2, 3, 5, 8] {
            let store = MemoryStore::new();
            let db = opened(23, &store);
            for changes in batch {
                let mut acts = db.change(changes).unwrap().pieces(3).limit(9);
                let mut done = take(&mut acts, stop, &store);
                while done == stop {
                    let other = Layer::new(&store).unwrap();
                    done = take(&mut other.resume().pieces(2).limit(7), stop, &store);
                }
                sound(&db);
            }
            let found = elements(&Layer::new(&store).unwrap().schema());
            assert!(found.iter().all(|it| it.2), "{found:?}");
            // what of a list had not begun when its operator ended is not in the store
            if batch[0].len() == 1 {
                assert_eq!(found, elements(&whole.schema()), "batch {at}, stop {stop}");
            }
        }
    }
}

/// Operators act by turns at random, each loses answers, and all that they began is complete in the end.
#[test]
fn several_operators() {
    for seed in 0..12 {
        let (store, mut dice) = (MemoryStore::new(), Dice(seed));
        let db = opened(23, &store);
        let note = SchemaChange::add_column("people", "note", Text);
        let batches = [
            vec![by_town(), rank()],
            vec![note, SchemaChange::drop_column("tags", "n")],
            vec![SchemaChange::add_index("people", "by_age", ["age"])],
        ];
        let mut due = [vec!["by_town", "rank"], vec!["note"], vec!["by_age"]];
        let operators = [0, 1, 2].map(|_| {
            let script = (0..60).map(|_| [Plain, Plain, Lost, Gone, Late][dice.below(5)]);
            Layer::new(Scripted::new(&store, script.collect::<Vec<_>>())).unwrap()
        });
        let begun = operators.iter().zip(&batches);
        let begun = begun.map(|(it, batch)| it.change(batch).unwrap().pieces(3).limit(9));
        let mut running: Vec<_> = begun.enumerate().collect();
        while !running.is_empty() {
            let at = dice.below(running.len());
            match running[at].1.next() {
                Some(Ok(_)) => {}
                // its answer was lost, and other operators have closed the version that would show it
                Some(Err(Error::Store(StoreError::Unknown(_)))) => {
                    due[running.remove(at).0].clear()
                }
                None => drop(running.remove(at)),
                Some(Err(error)) => panic!("{seed}: {error}"),
            }
            let (id, age) = (dice.below(30) as i64, dice.below(9) as i64);
            db.modify("people", id, |_| Some([("age", age)])).unwrap();
            sound(&db);
        }
        end(db.resume()).unwrap();
        let found = elements(&Layer::new(&store).unwrap().schema());
        assert!(found.iter().all(|it| it.2), "{seed}: {found:?}");
        for name in due.concat() {
            assert!(found.iter().any(|it| it.1 == name), "{seed}: {name}");
        }
        sound(&db);
    }
}

/// An operator that is overtaken, and whose answers all come, knows what of its list has not begun, and
/// begins it.
#[test]
fn an_operator_that_is_overtaken() {
    let store = MemoryStore::new();
    let db = opened(23, &store);
    let slow = Layer::new(&store).unwrap();
    let by_rank = SchemaChange::add_index("people", "by_rank", ["rank"]);
    let mut acts = slow.change(&[rank(), by_rank]).unwrap();
    for _ in 0..3 {
        let note = SchemaChange::add_column("people", "note", Text);
        db.complete(&[note]).unwrap();
        db.complete(&[drop_column("note")]).unwrap();
    }
    let mut due = elements(&Layer::new(&store).unwrap().schema());
    assert!(due.iter().all(|it| it.1 != "by_rank"));
    acts.try_for_each(|act| act.map(drop)).unwrap();
    due.insert(("people".to_string(), "by_rank".to_string(), true));
    assert_eq!(elements(&Layer::new(&store).unwrap().schema()), due);
    sound(&db);
}

#[test]
fn pieces_are_as_many_as_keys_allow() {
    let cases = [
        (0, 8, 1),
        (1, 8, 1),
        (2, 8, 2),
        (300, 8, 7),
        (300, 64, 50),
        (300, 1, 1),
    ];
    for (rows, pieces, least) in cases {
        let db = opened(rows, MemoryStore::new());
        let worked = |change: SchemaChange| -> BTreeSet<u32> {
            let acts = db.change(&[change]).unwrap().pieces(pieces).limit(20);
            let piece = |act: Result<Act, Error>| match act.unwrap() {
                Act::Work { piece, .. } => Some(piece),
                _ => None,
            };
            acts.filter_map(piece).collect()
        };
        let filled = worked(by_town());
        assert!(
            (least..=pieces).contains(&filled.len()),
            "{rows} rows: {filled:?}"
        );
        let cleared = worked(SchemaChange::drop_index("people", "by_town"));
        assert!(
            (1..=pieces).contains(&cleared.len()),
            "{rows} rows: {cleared:?}"
        );
        sound(&db);
    }
    let db = opened(3, MemoryStore::new());
    let refused = end(db.change(&[by_town()]).unwrap().pieces(65));
    assert_eq!(refused, Err(Error::BadCount));
}

/// Pieces become as small as the store and the rows want.
#[test]
fn small_drafts() {
    for (most, is_enough) in [(9, true), (6, true), (4, false)] {
        let store = MemoryStore::new();
        let db = opened(30, &store);
        let small = Layer::new(Small(&store, most)).unwrap();
        for change in [by_town(), drop_column("age")] {
            let ended = small.change(&[change]).and_then(|acts| end(acts.pieces(1)));
            match is_enough {
                true => assert_eq!(ended, Ok(()), "{most}"),
                false => {
                    let is_too_large = matches!(ended, Err(Error::Store(StoreError::TooLarge(_))));
                    assert!(is_too_large, "{ended:?}");
                    end(db.resume()).unwrap();
                }
            }
        }
        sound(&db);
    }
}

/// A step of several elements is published in parts, if the cursors of their pieces are too many for the
/// store.
#[test]
fn steps_that_are_too_large() {
    for most in [9, 8, 7] {
        let store = MemoryStore::new();
        let db = opened(40, &store);
        let small = Layer::new(Small(&store, most)).unwrap();
        let index = |it| SchemaChange::add_index("people", format!("by_{it}"), ["town"]);
        let mut batch = vec![index(0), index(1), index(2)];
        if most > 7 {
            batch.push(drop_column("age"));
        }
        let ended = end(small.change(&batch).unwrap().pieces(5).limit(3));
        match most {
            7 => {
                let is_too_large = matches!(ended, Err(Error::Store(StoreError::TooLarge(_))));
                assert!(is_too_large, "{ended:?}");
                end(db.resume()).unwrap();
            }
            _ => assert_eq!(ended, Ok(()), "{most}"),
        }
        let left = Layer::new(&store).unwrap().schema().elements.len();
        assert_eq!(left, 6 - usize::from(most > 7), "{most}");
        sound(&db);
    }
}

#[test]
fn a_change_that_is_abandoned() {
    let store = MemoryStore::new();
    let db = opened(10, &store);
    let mut acts = db.change(&[by_town()]).unwrap().pieces(2).limit(3);
    while !matches!(acts.next(), Some(Ok(Act::Work { .. }))) {}
    let other = Layer::new(&store).unwrap();
    other
        .complete(&[SchemaChange::abandon("people", "by_town")])
        .unwrap();
    assert_eq!(acts.next(), None);
    let whole = opened(0, MemoryStore::new());
    assert_eq!(elements(&other.schema()), elements(&whole.schema()));
    sound(&db);
}

#[test]
fn a_whole_change_beside_writers() {
    let store = MemoryStore::new();
    change_beside_writers(|| &store, 100);
}

/// One of fifty answers is lost, after its draft was applied.
#[test]
fn a_whole_change_beside_writers_whose_answers_are_lost() {
    let store = MemoryStore::new();
    change_beside_writers(|| Dropping::new(&store), 100);
}

/// Threads share one `Layer`, and each finds the version that another has read.
#[test]
fn threads_share_a_layer() {
    let store = Dropping::new(MemoryStore::new());
    change_beside_writers(|| &store, 100);
    let db = Layer::new(&store).unwrap();
    let before = db.schema();
    std::thread::scope(|scope| {
        for writer in 0..4 {
            let db = &db;
            scope.spawn(move || {
                for it in 0..100 {
                    db.insert("people", 1000 + 100 * writer + it, ()).unwrap();
                }
            });
        }
        Layer::new(&store).unwrap().complete(&[by_town()]).unwrap();
    });
    db.insert("people", 1, ()).unwrap_err();
    assert_ne!(db.schema(), before);
    sound(&db);
}
