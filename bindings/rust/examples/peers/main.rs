//! The work of `load` by three stores, from one language: threads insert the rows 0, 1, .., each
//! with a = key mod 7 and by a transaction of its own, while an index on a is added; then it is
//! seen that no row is missing, which is not measured.
//!
//! `peers [NAME [ROWS]]`: all of them, or `engine`, `engine-1`, `map` or `sqlite`; 100,000 rows if
//! nothing else is said. It ends with 1 if one could not do its work.

mod engine;
mod map;
mod sqlite;

use std::env;
use std::process::ExitCode;
use std::time::Duration;

const ROWS: i64 = 100_000;
/// How many values the column a has.
const VALUES: i64 = 7;

/// How long the rows and the index took, or why it could not be done.
type Measured = Result<Duration, String>;

/// A store that does the work.
struct Peer {
    word: &'static str,
    about: &'static str,
    measure: fn(i64) -> Measured,
}

const PEERS: [Peer; 4] = [
    Peer {
        word: "engine",
        about: "Cagzhomul, 4 threads and 3 workers",
        measure: |rows| engine::run(rows, 4),
    },
    Peer {
        word: "engine-1",
        about: "Cagzhomul, 1 thread and 3 workers",
        measure: |rows| engine::run(rows, 1),
    },
    Peer {
        word: "map",
        about: "an ordered map under a mutex, 4 threads",
        measure: |rows| map::run(rows, 4),
    },
    Peer {
        word: "sqlite",
        about: "SQLite in memory, 1 thread",
        measure: sqlite::run,
    },
];

/// Measures one of them for so many rows, and prints what came of it: whether it could be done.
fn show(peer: &Peer, rows: i64) -> bool {
    let about = peer.about;
    match (peer.measure)(rows) {
        Ok(taken) => {
            let seconds = taken.as_secs_f64();
            let rate = rows as f64 / seconds;
            println!("{about}: {rows} rows, {seconds:.3} s, {rate:.0} rows/s");
            true
        }
        Err(why) => {
            eprintln!("{about}: {why}");
            false
        }
    }
}

fn main() -> ExitCode {
    let words: Vec<String> = env::args().skip(1).collect();
    let rows = words
        .get(1)
        .map_or(ROWS, |word| word.parse().expect("a number of rows"));
    let name = words.first();
    let chosen = PEERS
        .iter()
        .filter(|peer| name.is_none_or(|name| name == peer.word));
    let shown: Vec<bool> = chosen.map(|peer| show(peer, rows)).collect();
    match !shown.is_empty() && shown.iter().all(|is_done| *is_done) {
        true => ExitCode::SUCCESS,
        false => ExitCode::FAILURE,
    }
}
