//! Stores of one's own that are not to be believed, and what a store does with a draft.

mod layer_shared;

use cagzhomul::layer::{
    Act, Answer, ComparedRange, Draft, Layer, MemoryStore, Page, Range, Store, StoreError, Values,
};
use cagzhomul::{Error, Query, SchemaChange};
use layer_shared::{end, opened};
use std::cell::Cell;

/// A store whose answers to reads are spoiled.
struct Lying<'a>(&'a MemoryStore, &'a dyn Fn(&mut Answer));

impl Store for Lying<'_> {
    fn read(&self, points: &[Vec<u8>], ranges: &[Range]) -> Result<Answer, StoreError> {
        let mut answer = self.0.read(points, ranges)?;
        (self.1)(&mut answer);
        Ok(answer)
    }

    fn apply(&self, draft: &Draft) -> Result<(), StoreError> {
        self.0.apply(draft)
    }
}

type Lie = (&'static str, fn(&mut Answer));

/// Ways to spoil an answer that has a point and pages of several pairs.
const LIES: [Lie; 9] = [
    ("out of order", |it| {
        of_pages(it, |page| page.pairs.reverse())
    }),
    ("a pair of a range twice", |it| {
        of_pages(it, |page| page.pairs.insert(0, page.pairs[0].clone()));
    }),
    ("a key after the range", |it| {
        of_pages(it, |page| page.pairs.push((b"\xff".to_vec(), Vec::new())));
    }),
    ("a key before the range", |it| {
        of_pages(it, |page| page.pairs.insert(0, Default::default()));
    }),
    ("a page that ends outside", |it| {
        of_pages(it, |page| page.end.push(0))
    }),
    ("no page", |it| drop(it.pages.pop())),
    ("a page more", |it| it.pages.push(it.pages[0].clone())),
    ("a foreign point", |it| {
        it.pairs.push((b"R\0".to_vec(), Vec::new()))
    }),
    ("a point twice", |it| it.pairs.push(it.pairs[0].clone())),
];

fn of_pages(answer: &mut Answer, spoil: impl Fn(&mut Page)) {
    answer.pages.iter_mut().for_each(spoil);
}

#[test]
fn bad_answers_are_refused() {
    let store = MemoryStore::new();
    opened(20, &store);
    for (name, lie) in LIES {
        let is_lying = Cell::new(false);
        let spoil = |answer: &mut Answer| {
            if is_lying.get() {
                lie(answer);
            }
        };
        let db = Layer::new(Lying(&store, &spoil)).unwrap();
        is_lying.set(true);
        let found = db.query(&Query::of("people"));
        let refused = matches!(found, Err(Error::Store(StoreError::BadAnswer(_))));
        assert!(refused, "{name}: {found:?}");
    }
}

/// An operator ends at a reorganisation's record that names another element than its key does, and
/// makes no drafts for ever.
#[test]
fn records_that_do_not_fit_are_refused() {
    let store = MemoryStore::new();
    let db = opened(20, &store);
    let by_town = SchemaChange::add_index("people", "by_town", ["town"]);
    let mut acts = db.change(&[by_town]).unwrap();
    let begun = |act: Result<Act, Error>| matches!(act.unwrap(), Act::Begin { .. });
    assert!(acts.any(begun));
    let all = Range {
        low: vec![1],
        high: vec![2],
        limit: 10,
    };
    let (key, record) = store.read(&[], &[all]).unwrap().pages[0].pairs[0].clone();
    let mut other = record;
    other[4] += 1; // the last byte of the element's number
    let write = [(key, Some(other))].into();
    let spoil = Draft {
        write,
        ..Draft::default()
    };
    store.apply(&spoil).unwrap();
    let ended = end(db.resume());
    let refused = matches!(ended, Err(Error::Store(StoreError::BadAnswer(_))));
    assert!(refused, "{ended:?}");
}

fn bytes(text: &str) -> Vec<u8> {
    text.as_bytes().to_vec()
}

fn values(pairs: &[(&str, Option<&str>)]) -> Values {
    let pairs = pairs.iter();
    pairs
        .map(|(key, value)| (bytes(key), value.map(bytes)))
        .collect()
}

fn range(low: &str, high: &str, pairs: &[(&str, &str)]) -> ComparedRange {
    let pairs = pairs.iter().map(|(key, value)| (bytes(key), bytes(value)));
    ComparedRange {
        low: bytes(low),
        high: bytes(high),
        pairs: pairs.collect(),
    }
}

/// Tries a draft with these comparisons on a store with a, b and c, of which c is empty: it is applied, or
/// refused with a key, and then nothing has changed.
fn compare(compare: Values, ranges: Vec<ComparedRange>, refused: Option<&str>) {
    let store = MemoryStore::new();
    let first = Draft {
        write: values(&[("a", Some("1")), ("b", Some("2")), ("c", Some(""))]),
        ..Draft::default()
    };
    store.apply(&first).unwrap();
    let draft = Draft {
        compare,
        ranges,
        write: values(&[("a", None), ("n", Some("new"))]),
    };
    let due = refused.map(|key| StoreError::Refused(Some(bytes(key))));
    assert_eq!(store.apply(&draft).err(), due, "{draft:?}");
    let found = store.read(&[bytes("a"), bytes("n")], &[]).unwrap().pairs;
    let left = match refused {
        None => (bytes("n"), bytes("new")),
        Some(_) => (bytes("a"), bytes("1")),
    };
    assert_eq!(found, [left]);
}

/// The key that differs first is that of a point, and then of a range.
#[test]
fn drafts_are_applied_whole_or_refused() {
    compare(
        values(&[("a", Some("1")), ("c", Some("")), ("z", None)]),
        vec![],
        None,
    );
    for (key, value) in [("a", Some("2")), ("a", None), ("c", None), ("z", Some(""))] {
        compare(values(&[(key, value)]), vec![], Some(key));
    }
    let all = [("a", "1"), ("b", "2"), ("c", "")];
    let ranges = [
        (range("a", "d", &all), None),
        (range("b", "a", &[]), None),
        (range("b", "b", &[]), None),
        (range("a", "c", &all), Some("c")),
        (range("a", "d", &all[1..]), Some("a")),
        (range("a", "d", &all[..2]), Some("c")),
        (range("a", "d", &[all[0], ("b", ""), all[2]]), Some("b")),
        (
            range("", "d", &[("", ""), all[0], all[1], all[2]]),
            Some(""),
        ),
    ];
    for (range, refused) in ranges {
        compare(values(&[]), vec![range.clone()], refused);
        compare(values(&[("z", Some(""))]), vec![range], Some("z"));
    }
}
