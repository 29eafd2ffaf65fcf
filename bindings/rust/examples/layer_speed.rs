//! Transactions a second over an SQLite file, each of three updates among 10,000 rows of one column: by
//! `Layer`, and by a bare program that reads the same six keys and hands in a draft of the same eight
//! comparisons and four writes. Servers are threads, each with a connection of its own; the two programs
//! take turns, and the share is the middle one of the turns', since a machine's speed changes.
//!
//!     cargo run --release --features sqlite --example layer_speed -- [SECONDS] [FOLDER]

use cagzhomul::layer::{Draft, Layer, Range, SqliteStore, Store, StoreError, Values};
use cagzhomul::Type::{Int, Text};
use cagzhomul::{Error, Table};
use std::env;
use std::fs;
use std::path::{Path, PathBuf};
use std::sync::Barrier;
use std::thread;
use std::time::{Duration, Instant};

const ROWS: u64 = 10_000;
const ROUNDS: usize = 21;
const SERVERS: [u64; 3] = [1, 4, 16];

/// Numbers by chance, other ones for each server.
struct Dice(u64);

impl Dice {
    fn next(&mut self) -> u64 {
        self.0 ^= self.0 << 13;
        self.0 ^= self.0 >> 7;
        self.0 ^= self.0 << 17;
        self.0
    }

    /// Three different rows.
    fn rows(&mut self) -> [u64; 3] {
        let first = self.next() % ROWS;
        [
            first,
            (first + 1 + self.next() % 4000) % ROWS,
            (first + 5000 + self.next() % 4000) % ROWS,
        ]
    }

    /// A text of 100 letters.
    fn text(&mut self) -> String {
        format!("{:020}", self.next()).repeat(5)
    }
}

/// Runs a transaction again and again until the time has come, and says how often it was applied.
type Program = fn(SqliteStore, &mut Dice, &Barrier, Duration) -> Result<u64, Error>;

/// Counts the turns that end before the time has come and that say so.
fn count(
    barrier: &Barrier,
    time: Duration,
    mut turn: impl FnMut() -> Result<bool, Error>,
) -> Result<u64, Error> {
    barrier.wait();
    let (end, mut applied) = (Instant::now() + time, 0);
    while Instant::now() < end {
        applied += u64::from(turn()?);
    }
    Ok(applied)
}

fn by_layer(
    store: SqliteStore,
    dice: &mut Dice,
    barrier: &Barrier,
    time: Duration,
) -> Result<u64, Error> {
    let db = Layer::new(store)?;
    count(barrier, time, || {
        let mut txn = db.txn();
        for row in dice.rows() {
            txn.update("rows", row as i64, [("data", dice.text())]);
        }
        txn.commit().map(|_| true)
    })
}

/// The key of a row's pair: 0 that it is there, 1 its column.
fn pair(row: u64, column: u8) -> Vec<u8> {
    let number = (row ^ (1 << 63)).to_be_bytes();
    [b"R\0\0\0\x01\x02", &number[..], &[0, 0, 0, column]].concat()
}

/// The draft of a transaction under a version, whose key and record are given, from what the store holds.
fn bare_draft(
    store: &SqliteStore,
    dice: &mut Dice,
    version: (&[u8], &[u8]),
) -> Result<Draft, Error> {
    let rows = dice.rows();
    let points = rows.map(|it| [pair(it, 0), pair(it, 1)]).concat();
    let found = store.read(&points, &[])?.pairs.into_iter();
    let mark = [
        vec![3],
        (0..2).flat_map(|_| dice.next().to_be_bytes()).collect(),
    ]
    .concat();
    let mut compare: Values = points.into_iter().map(|it| (it, None)).collect();
    compare.extend(found.map(|(key, value)| (key, Some(value))));
    compare.insert(version.0.to_vec(), Some(version.1.to_vec()));
    compare.insert(mark.clone(), None);
    let value = |text: String| Some([b"\x03", text.as_bytes(), b"\0\x01"].concat());
    let write = rows.map(|it| (pair(it, 1), value(dice.text())));
    Ok(Draft {
        compare,
        ranges: Vec::new(),
        write: write.into_iter().chain([(mark, Some(vec![1]))]).collect(),
    })
}

fn bare(
    store: SqliteStore,
    dice: &mut Dice,
    barrier: &Barrier,
    time: Duration,
) -> Result<u64, Error> {
    let versions = Range {
        low: vec![0],
        high: vec![1],
        limit: 2,
    };
    let mut page = store.read(&[], &[versions])?.pages.remove(0);
    let (version, record) = page.pairs.pop().ok_or(Error::NotOpened)?;
    count(barrier, time, || {
        let draft = bare_draft(&store, dice, (&version, &record))?;
        match store.apply(&draft) {
            Err(StoreError::Refused(_)) => Ok(false),
            applied => Ok(applied.map(|()| true)?),
        }
    })
}

/// Transactions a second of so many servers. The numbers of each round are others: a mark that was
/// drawn before would be refused.
fn measure(
    path: &Path,
    (servers, round): (u64, usize),
    time: Duration,
    program: Program,
) -> Result<f64, Error> {
    let barrier = Barrier::new(servers as usize);
    let work = |server: u64| {
        let mut dice =
            Dice(0x9e37_79b9_7f4a_7c15 ^ ((round as u64 + 1) << 40 | servers << 20 | (server + 1)));
        let store = SqliteStore::with(path, "cagzhomul", Duration::from_secs(60))?;
        program(store, &mut dice, &barrier, time)
    };
    let applied: Result<u64, Error> = thread::scope(|scope| {
        let servers: Vec<_> = (0..servers)
            .map(|it| scope.spawn(move || work(it)))
            .collect();
        servers
            .into_iter()
            .map(|it| it.join().expect("no server panics"))
            .sum()
    });
    Ok(applied? as f64 / time.as_secs_f64())
}

/// Opens a database with the rows.
fn fill(path: &Path) -> Result<(), Error> {
    let rows = Table::new("rows").key("id", Int).column("data", Text);
    let db = Layer::open(SqliteStore::open(path)?, [rows])?;
    for from in (0..ROWS).step_by(60) {
        let mut txn = db.txn();
        for id in from..ROWS.min(from + 60) {
            txn.insert("rows", id as i64, [("data", "x".repeat(100))]);
        }
        txn.commit()?;
    }
    Ok(())
}

fn best_and_median(mut rates: Vec<f64>) -> (f64, f64) {
    rates.sort_by(f64::total_cmp);
    (rates[ROUNDS - 1], rates[ROUNDS / 2])
}

fn report(path: &Path, time: Duration) -> Result<(), Error> {
    fill(path)?;
    println!("| Servers | Bare, best / median a second | By the layer, best / median | Share |");
    println!("|---|---|---|---|");
    for servers in SERVERS {
        let mut rates = [Vec::new(), Vec::new()];
        for round in 0..ROUNDS {
            for (rates, program) in rates.iter_mut().zip([bare as Program, by_layer]) {
                rates.push(measure(path, (servers, round), time, program)?);
            }
        }
        let [bare, layer] = &rates;
        let shares = layer.iter().zip(bare).map(|(layer, bare)| layer / bare);
        let (_, share) = best_and_median(shares.collect());
        let [bare, layer] = rates.map(best_and_median);
        println!(
            "| {servers} | {:.0} / {:.0} | {:.0} / {:.0} | {share:.2} |",
            bare.0, bare.1, layer.0, layer.1,
        );
    }
    Ok(())
}

fn main() -> Result<(), Box<dyn std::error::Error>> {
    let seconds = env::args().nth(1).map_or(Ok(0.3), |it| it.parse())?;
    let folder = env::args().nth(2).map_or(env::temp_dir(), PathBuf::from);
    let folder = folder.join(format!("cagzhomul-speed-{}", std::process::id()));
    fs::create_dir_all(&folder)?;
    let done = report(
        &folder.join("rows.db"),
        Duration::try_from_secs_f64(seconds)?,
    );
    fs::remove_dir_all(&folder)?;
    Ok(done?)
}
