//! An ordered map under a mutex, and its index: the work of tools/peers/map.cpp. From the first
//! moment each insert keeps the index, and a fill goes over the rows, 1,000 under the lock at a
//! time.

use crate::{Measured, VALUES};
use std::collections::{BTreeMap, BTreeSet};
use std::sync::atomic::{AtomicI64, Ordering};
use std::sync::{Mutex, MutexGuard, PoisonError};
use std::thread;
use std::time::Instant;

const STEP: usize = 1000;

#[derive(Default)]
struct Store {
    table: BTreeMap<i64, i64>,
    index: BTreeSet<(i64, i64)>,
    is_indexed: bool,
}

fn lock(store: &Mutex<Store>) -> MutexGuard<'_, Store> {
    store.lock().unwrap_or_else(PoisonError::into_inner)
}

/// Inserts the rows that it draws.
fn insert_rows(store: &Mutex<Store>, next: &AtomicI64, rows: i64) {
    loop {
        let key = next.fetch_add(1, Ordering::Relaxed);
        if key >= rows {
            return;
        }
        let mut held = lock(store);
        held.table.insert(key, key % VALUES);
        if held.is_indexed {
            held.index.insert((key % VALUES, key));
        }
    }
}

/// The next rows of the fill, from this key on: the key after them, if any are left.
fn fill_some(store: &mut Store, from: i64) -> Option<i64> {
    let mut rows = store.table.range(from..);
    let filled = rows.by_ref().take(STEP).map(|(key, a)| (*a, *key));
    store.index.extend(filled);
    rows.next().map(|(key, _)| *key)
}

fn add_index(store: &Mutex<Store>) {
    lock(store).is_indexed = true;
    let mut from = 0;
    while let Some(next) = { fill_some(&mut lock(store), from) } {
        from = next;
    }
}

/// The time of so many rows by so many threads.
pub(crate) fn run(rows: i64, threads: usize) -> Measured {
    let (store, next) = (Mutex::default(), AtomicI64::new(0));
    let begun = Instant::now();
    thread::scope(|scope| {
        for _ in 0..threads {
            scope.spawn(|| insert_rows(&store, &next, rows));
        }
        add_index(&store);
    });
    let (taken, store) = (begun.elapsed(), lock(&store));
    match (store.table.len(), store.index.len()) == (rows as usize, rows as usize) {
        true => Ok(taken),
        false => Err("a row is missing".to_string()),
    }
}
