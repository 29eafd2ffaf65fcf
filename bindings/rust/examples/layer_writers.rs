//! Moves money between the accounts of an SQLite file: any number of processes may do so at once, and be
//! killed, while others change the schema.
//!
//!     cargo run --features sqlite --example layer_writers -- shop.db anna 100

use cagzhomul::layer::{Layer, SqliteStore};
use cagzhomul::Type::{Int, Text};
use cagzhomul::{Error, Query, Row, Table, Value};
use std::env;
use std::time::Duration;

fn balance(row: Option<Row>) -> i64 {
    match row.as_ref().and_then(|row| row.get("balance")) {
        Some(Value::Int(balance)) => *balance,
        _ => 0,
    }
}

fn main() -> Result<(), Error> {
    let [file, name, moves] = [1, 2, 3].map(|at| env::args().nth(at).unwrap_or_default());
    let accounts = Table::new("accounts").key("id", Int).column("balance", Int);
    let moved = Table::new("moves").key("name", Text).key("number", Int);
    let store = SqliteStore::with(&file, "cagzhomul", Duration::from_secs(60))?;
    let db = Layer::open(store, [accounts, moved])?;
    for id in 0..8 {
        db.modify("accounts", id, |row| {
            row.is_none().then_some([("balance", 100)])
        })?;
    }
    for number in 0..moves.parse().unwrap_or(10) {
        let (giver, taker) = (number % 8, (number + 3) % 8);
        db.run(|txn| {
            let given = balance(txn.get("accounts", giver)?);
            let taken = balance(txn.get("accounts", taker)?);
            txn.update("accounts", giver, [("balance", given - 1)]);
            txn.update("accounts", taker, [("balance", taken + 1)]);
            txn.insert("moves", (&name, number), ());
            Ok(())
        })?;
        println!("done {number}");
    }
    let rows = db.query(&Query::of("accounts"))?;
    println!(
        "sum {}",
        rows.into_iter().map(|row| balance(Some(row))).sum::<i64>()
    );
    Ok(())
}
