//! Rows a second that one thread inserts, each by a transaction of its own: by lines of the script
//! language, and by typed transactions; and their ratio. `speed [ROWS [PASSES]]`: the passes take
//! turns, and the best of each counts.

use cagzhomul::Type::{Int, Text};
use cagzhomul::{Db, Error, Table};
use std::env;
use std::time::Instant;

fn open() -> Result<Db, Error> {
    Db::open([Table::new("people").key("id", Int).column("town", Text)])
}

/// The seconds that all rows take.
fn time(rows: i64, mut insert: impl FnMut(i64) -> Result<(), Error>) -> Result<f64, Error> {
    let start = Instant::now();
    (0..rows).try_for_each(&mut insert)?;
    Ok(start.elapsed().as_secs_f64())
}

fn by_lines(rows: i64) -> Result<f64, Error> {
    let db = open()?;
    db.line("lease a at 5")?;
    time(rows, |id| {
        let reply = db.line(&format!(
            "txn a at 5: insert people ({id}) set town = 'Ulm'"
        ))?;
        assert!(reply.starts_with("ok done "), "{reply}");
        Ok(())
    })
}

fn by_transactions(rows: i64) -> Result<f64, Error> {
    let db = open()?;
    let lease = db.lease(5)?;
    time(rows, |id| {
        lease
            .txn()
            .insert("people", id, [("town", "Ulm")])
            .commit(5)?;
        Ok(())
    })
}

fn main() -> Result<(), Error> {
    let mut words = env::args()
        .skip(1)
        .map(|word| word.parse().expect("a number"));
    let (rows, passes) = (words.next().unwrap_or(100_000), words.next().unwrap_or(5));
    let (mut lines, mut typed) = (f64::INFINITY, f64::INFINITY);
    for _ in 0..passes {
        lines = lines.min(by_lines(rows)?);
        typed = typed.min(by_transactions(rows)?);
    }
    let a_second = |seconds: f64| rows as f64 / seconds;
    println!("by lines         {:>8.0} rows a second", a_second(lines));
    println!("by transactions  {:>8.0} rows a second", a_second(typed));
    println!("ratio            {:>8.2}", lines / typed);
    Ok(())
}
