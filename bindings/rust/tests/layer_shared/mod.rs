//! What the tests of the layer share: a database, stores that lose answers or take small drafts, and a
//! whole change beside writers.
#![allow(dead_code)] // no test uses all of it

use cagzhomul::layer::{
    Act, Acts, Answer, Draft, Layer, Mark, MemoryStore, Range, Store, StoreError,
};
use cagzhomul::Type::{Int, Text};
use cagzhomul::{Check, Error, Query, Row, SchemaChange, Table, Value};
use std::cell::{Cell, RefCell};
use std::collections::{BTreeSet, VecDeque};
use std::sync::atomic::{AtomicBool, Ordering};
use std::thread;

pub const TOWNS: [Option<&str>; 4] = [Some("Ulm"), Some("Bonn"), Some("Rom"), None];

pub fn tables() -> [Table; 2] {
    let people = Table::new("people").key("id", Int);
    let people = people.column("town", Text).column("age", Int);
    [
        people,
        Table::new("tags").key("name", Text).column("n", Int),
    ]
}

/// The cells of the person of this number.
pub fn person(id: i64) -> [(&'static str, Value); 2] {
    let town = TOWNS[id as usize % TOWNS.len()];
    [("town", town.into()), ("age", (id % 7).into())]
}

/// A database with so many people over a store.
pub fn opened<S: Store>(rows: i64, store: S) -> Layer<S> {
    let db = Layer::open(store, tables()).unwrap();
    for from in (0..rows).step_by(60) {
        let mut txn = db.txn();
        for id in from..rows.min(from + 60) {
            txn.insert("people", id, person(id));
        }
        txn.commit().unwrap();
    }
    db
}

/// Nothing is missing, and nothing too much, in any open version.
pub fn sound<S: Store>(db: &Layer<S>) {
    let audits = db.check().unwrap();
    assert!(audits.values().all(|it| it.is_clean()), "{audits:?}");
}

/// By pages of each of these sizes the newest version has this check.
fn checks<S: Store>(db: &Layer<S>, due: Check) {
    for pairs in [1, 2, 3, 7, 1000] {
        let (_, found) = db.check_by(pairs).unwrap().pop_last().unwrap();
        assert_eq!(found, due, "by {pairs}");
    }
    assert_eq!(db.check().unwrap().pop_last().unwrap().1, due);
}

/// A check by pages finds what was taken away or put in by hand.
pub fn damage_is_counted<S: Store>(store: S) {
    let db = opened(10, store);
    db.complete(&[SchemaChange::add_index("people", "by_town", ["town"])])
        .unwrap();
    let due = |rows, missing, extra| Check {
        rows,
        missing,
        extra,
    };
    checks(&db, due(10, 0, 0));
    let whole = Range {
        low: b"R".to_vec(),
        high: b"Y".to_vec(),
        limit: 1000,
    };
    let pairs = db
        .store()
        .read(&[], &[whole])
        .unwrap()
        .pages
        .remove(0)
        .pairs;
    let write = |key: Vec<u8>, value: Option<Vec<u8>>| {
        let write = [(key, value)].into();
        let put = Draft {
            write,
            ..Draft::default()
        };
        db.store().apply(&put).unwrap();
    };
    let index: Vec<_> = pairs.iter().filter(|it| it.0.starts_with(b"X")).collect();
    assert_eq!(index.len(), 10);
    // a row without its pair of the index, and then a pair of the row 99, which is not there
    write(index[0].0.clone(), None);
    checks(&db, due(10, 1, 0));
    let mut other = index[1].0.clone();
    *other.last_mut().unwrap() = 99;
    write(other, Some(Vec::new()));
    checks(&db, due(10, 1, 1));
    // keys of neither kind
    write(b"\x04".to_vec(), Some(Vec::new()));
    write(b"\xfe".to_vec(), Some(Vec::new()));
    checks(&db, due(10, 1, 3));
    // a key of a row is R, 4 bytes of its table, 9 of the id, and 4 of the column or 0: row 2 has a town, an age
    // and a pair of the index, which are of no row without its `exists` pair
    let exists = pairs
        .iter()
        .find(|it| it.0.ends_with(b"\x02\0\0\0\0"))
        .unwrap();
    write(exists.0.clone(), None);
    checks(&db, due(9, 1, 6));
}

pub fn row<S: Store>(db: &Layer<S>, id: i64) -> Option<Row> {
    db.query(&Query::of("people").key(id)).unwrap().pop()
}

/// The number in a column of a row.
pub fn number(row: Option<&Row>, column: &str) -> i64 {
    match row.and_then(|row| row.get(column)) {
        Some(Value::Int(number)) => *number,
        other => panic!("{column}: {other:?}"),
    }
}

/// What a scripted store does with a draft.
#[derive(Debug, Clone, Copy, PartialEq, Eq)]
pub enum How {
    /// As the store below.
    Plain,
    /// It is applied, and the answer is lost.
    Lost,
    /// It is kept for later, and the answer is lost.
    Late,
    /// Nothing is applied, and the answer is lost.
    Gone,
    /// No server answers.
    Down,
}

/// A store that does with drafts what its script says, in turn, and then as the store below.
pub struct Scripted<'a> {
    pub store: &'a MemoryStore,
    script: RefCell<VecDeque<How>>,
    pub late: RefCell<Vec<Draft>>,
    pub drafts: RefCell<usize>,
    /// What is done before the second draft, and before each read.
    pub between: Box<dyn Fn() + 'a>,
    pub before_read: Box<dyn Fn() + 'a>,
}

impl<'a> Scripted<'a> {
    pub fn new(store: &'a MemoryStore, script: impl IntoIterator<Item = How>) -> Scripted<'a> {
        Scripted {
            store,
            script: RefCell::new(script.into_iter().collect()),
            late: RefCell::default(),
            drafts: RefCell::new(0),
            between: Box::new(|| {}),
            before_read: Box::new(|| {}),
        }
    }

    /// The drafts that come late are refused.
    pub fn late_are_refused(&self) {
        for draft in self.late.borrow().iter() {
            let answer = self.store.apply(draft);
            assert!(
                matches!(answer, Err(StoreError::Refused(Some(_)))),
                "{answer:?}"
            );
        }
    }
}

impl Store for Scripted<'_> {
    fn read(&self, points: &[Vec<u8>], ranges: &[Range]) -> Result<Answer, StoreError> {
        (self.before_read)();
        self.store.read(points, ranges)
    }

    fn apply(&self, draft: &Draft) -> Result<(), StoreError> {
        *self.drafts.borrow_mut() += 1;
        if *self.drafts.borrow() == 2 {
            (self.between)();
        }
        let how = self.script.borrow_mut().pop_front();
        match how.unwrap_or(How::Plain) {
            How::Plain => return self.store.apply(draft),
            How::Down => return Err(StoreError::Unreachable("down".to_string())),
            How::Late => self.late.borrow_mut().push(draft.clone()),
            How::Lost => drop(self.store.apply(draft)),
            How::Gone => {}
        }
        Err(StoreError::Unknown("lost".to_string()))
    }
}

/// A store that takes drafts of at most so many comparisons.
pub struct Small<S>(pub S, pub usize);

impl<S: Store> Store for Small<S> {
    fn read(&self, points: &[Vec<u8>], ranges: &[Range]) -> Result<Answer, StoreError> {
        self.0.read(points, ranges)
    }

    fn apply(&self, draft: &Draft) -> Result<(), StoreError> {
        let pairs = draft.ranges.iter().map(|range| range.pairs.len());
        match draft.compare.len() + pairs.sum::<usize>() > self.1 {
            true => Err(StoreError::TooLarge("too many comparisons".to_string())),
            false => self.0.apply(draft),
        }
    }
}

/// A store of which every fiftieth answer to a thread's drafts is lost: it was applied, or refused. It
/// goes by threads, so that nobody loses two answers in a row, after which a transaction is unknown.
pub struct Dropping<S>(pub S);

thread_local! {
    static DRAFTS: Cell<usize> = const { Cell::new(0) };
}

impl<S> Dropping<S> {
    pub fn new(store: S) -> Dropping<S> {
        Dropping(store)
    }
}

impl<S: Store> Store for Dropping<S> {
    fn read(&self, points: &[Vec<u8>], ranges: &[Range]) -> Result<Answer, StoreError> {
        self.0.read(points, ranges)
    }

    fn apply(&self, draft: &Draft) -> Result<(), StoreError> {
        let count = 1 + DRAFTS.get();
        DRAFTS.set(count);
        match (self.0.apply(draft), count % 50) {
            (_, 0) => Err(StoreError::Unknown("the answer was lost".to_string())),
            (answer, _) => answer,
        }
    }
}

/// Numbers by chance, the same for a seed.
pub struct Dice(pub u64);

impl Dice {
    pub fn below(&mut self, count: usize) -> usize {
        self.0 = self.0.wrapping_mul(6_364_136_223_846_793_005);
        self.0 = self.0.wrapping_add(1_442_695_040_888_963_407);
        (self.0 >> 33) as usize % count
    }
}

/// Moves years from one person to another, and notes it under its own name; the answer is its mark.
fn move_years<S: Store>(db: &Layer<S>, dice: &mut Dice, name: &str) -> Result<Mark, Error> {
    let (one, other) = (dice.below(20), dice.below(20));
    db.run(|txn| {
        let ages = [one, other].map(|id| txn.get("people", id as i64));
        let [from, to] = ages.map(|row| row.map(|row| number(row.as_ref(), "age")));
        let (from, to) = (from?, to?);
        if one != other {
            txn.update("people", one as i64, [("age", from - 1)]);
            txn.update("people", other as i64, [("age", to + 1)]);
        }
        txn.insert("tags", name, [("n", 1)]);
        Ok(txn.mark())
    })
}

/// Changes that come and go beside writers: an index, and columns with and without a default.
pub fn rounds() -> [Vec<SchemaChange>; 2] {
    let rank = SchemaChange::add_column_with_default("people", "rank", Int, 7);
    let entering = [
        SchemaChange::add_index("people", "by_age", ["age"]),
        SchemaChange::add_index("tags", "by_n", ["n"]),
        SchemaChange::add_column("people", "note", Text),
    ];
    let leaving = [
        SchemaChange::drop_index("people", "by_age"),
        SchemaChange::drop_index("tags", "by_n"),
        SchemaChange::drop_column("people", "note"),
        SchemaChange::drop_column("people", "rank"),
    ];
    [
        [rank].into_iter().chain(entering).collect(),
        leaving.to_vec(),
    ]
}

fn years<S: Store>(db: &Layer<S>) -> i64 {
    let rows = db.query(&Query::of("people")).unwrap();
    rows.iter().map(|row| number(Some(row), "age")).sum()
}

/// Moves years so many times, and looks whether any were lost; the answer is the marks.
fn write<S: Store>(store: S, writer: usize, moves: usize) -> Vec<Mark> {
    let (db, mut dice) = (Layer::new(store).unwrap(), Dice(writer as u64));
    let before = years(&db);
    let one = |it: usize| {
        let mark = move_years(&db, &mut dice, &format!("{writer}/{it}")).unwrap();
        assert_eq!(years(&db), before, "years of one moment");
        mark
    };
    (0..moves).map(one).collect()
}

/// Four writers move years over stores of their own, while an operator makes changes in rounds, of which
/// it leaves each in the middle to another. In the end each transaction that was acknowledged is there
/// once, with its mark, nothing else is, and no year was lost.
pub fn change_beside_writers<S: Store + Send>(store: impl Fn() -> S + Sync, moves: usize) {
    let db = opened(20, store());
    let (before, is_over, store) = (years(&db), AtomicBool::new(false), &store);
    let (published, marks) = thread::scope(|scope| {
        let operator = scope.spawn(|| operate(store, &is_over));
        let writers = [0, 1, 2, 3].map(|it| scope.spawn(move || write(store(), it, moves)));
        let written = writers.map(|it| it.join());
        is_over.store(true, Ordering::Relaxed);
        let marks = written.map(|it| it.unwrap()).concat();
        (operator.join().unwrap(), marks)
    });
    assert!(published > 1, "the schema changed");
    end(db.resume()).unwrap();
    let names = db.query(&Query::of("tags")).unwrap();
    let found: BTreeSet<Value> = names.iter().map(|row| row.key()[0].clone()).collect();
    let due = (0..4).flat_map(|writer| (0..moves).map(move |it| format!("{writer}/{it}").into()));
    assert_eq!((names.len(), found), (4 * moves, due.collect()));
    let keys: Vec<_> = marks
        .iter()
        .map(|mark| [&[3], &mark[..]].concat())
        .collect();
    let there = db.store().read(&keys, &[]).unwrap().pairs;
    assert_eq!(there.len(), 4 * moves, "each mark is there");
    assert_eq!(years(&db), before);
    sound(&db);
}

/// Does all acts.
pub fn end<S: Store>(mut acts: Acts<'_, S>) -> Result<(), Error> {
    acts.try_for_each(|act| act.map(drop))
}

/// Makes changes in rounds until the writers have ended, and says how many versions it published.
fn operate<S: Store>(store: &(impl Fn() -> S + Sync), is_over: &AtomicBool) -> usize {
    let (mut dice, mut published) = (Dice(9), 0);
    let mut count = |act: Result<Act, Error>| {
        published += usize::from(matches!(act.unwrap(), Act::Publish { .. }));
    };
    for changes in rounds().iter().cycle() {
        let (first, other) = (Layer::new(store()).unwrap(), Layer::new(store()).unwrap());
        let acts = first.change(changes).unwrap().pieces(3).limit(20);
        acts.take(2 + dice.below(9)).for_each(&mut count);
        other.resume().pieces(2).limit(30).for_each(&mut count);
        if is_over.load(Ordering::Relaxed) {
            break;
        }
    }
    published
}
