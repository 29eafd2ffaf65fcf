//! Typed transactions and queries and lines of the script language, side by side: two stores that
//! are given the same operations, one in each way, answer the same and hold the same pairs.

use cagzhomul::Type::{Bool, Int, Text};
use cagzhomul::{Db, Error, Key, Query, Receipt, Table, Txn, Value};

const COLUMNS: [&str; 3] = ["n", "s", "f"];

fn open() -> Result<Db, Error> {
    let rows = Table::new("rows")
        .key("a", Int)
        .key("b", Text)
        .column("n", Int)
        .column("s", Text)
        .column("f", Bool)
        .index("by_s", ["s", "n"]);
    Db::open([Table::new("first").key("id", Int).column("c", Int), rows])
}

/// Numbers that look random, the same in each run.
struct Numbers(u64);

impl Numbers {
    fn below(&mut self, end: usize) -> usize {
        self.0 = self
            .0
            .wrapping_mul(6364136223846793005)
            .wrapping_add(1442695040888963407);
        (self.0 >> 33) as usize % end
    }

    fn one<T: Clone>(&mut self, of: &[T]) -> T {
        of[self.below(of.len())].clone()
    }

    fn value(&mut self, column: &str) -> Value {
        match (self.below(5), column) {
            (0, _) => Value::Null,
            (_, "n") => self.one(&[0, 1, -1, i64::MIN, i64::MAX]).into(),
            (_, "s") => self
                .one(&["", "'", "Ulm", "a\0b", "\u{fc} ; = (", "''x'"])
                .into(),
            _ => self.one(&[true, false]).into(),
        }
    }

    fn cells(&mut self) -> Vec<(&'static str, Value)> {
        let columns = COLUMNS.into_iter().filter(|_| self.below(2) == 0);
        let columns: Vec<_> = columns.collect();
        columns
            .into_iter()
            .map(|column| (column, self.value(column)))
            .collect()
    }
}

/// The text of cells; that of none is empty.
fn sets(cells: &[(&str, Value)]) -> String {
    let cells: Vec<String> = cells
        .iter()
        .map(|(name, value)| format!("{name} = {value}"))
        .collect();
    match cells.is_empty() {
        true => String::new(),
        false => format!(" set {}", cells.join(", ")),
    }
}

/// Adds an operation on one of a few rows to the transaction, and its text to the others.
fn add<'a>(txn: Txn<'a>, texts: &mut Vec<String>, numbers: &mut Numbers) -> Txn<'a> {
    let key = [
        Value::from(numbers.below(4) as i64),
        numbers.one(&["", "it's"]).into(),
    ];
    let text = format!("rows ({}, {})", key[0], key[1]);
    let (key, cells) = (Key::from(key), numbers.cells());
    match numbers.below(if cells.is_empty() { 2 } else { 3 }) {
        0 => {
            texts.push(format!("delete {text}"));
            txn.delete("rows", key)
        }
        1 => {
            texts.push(format!("insert {text}{}", sets(&cells)));
            txn.insert("rows", key, cells)
        }
        _ => {
            texts.push(format!("update {text}{}", sets(&cells)));
            txn.update("rows", key, cells)
        }
    }
}

/// The reply that a line would have had.
fn reply_of(ended: Result<Receipt, Error>) -> String {
    match ended {
        Ok(Receipt { place }) => format!("ok done {place}\n"),
        Err(Error::Duplicate { operation }) => format!("ok refused {operation} Duplicate\n"),
        Err(Error::NoRow { operation }) => format!("ok refused {operation} NoRow\n"),
        Err(error) => error.to_string(),
    }
}

#[test]
fn typed_transactions_do_what_lines_do() -> Result<(), Error> {
    let (typed, lines, mut numbers) = (open()?, open()?, Numbers(1));
    let lease = typed.lease(5)?;
    assert_eq!(lines.line("lease a at 5")?, "ok lease 1 5 15\n");
    let mut done = 0;
    for _ in 0..2000 {
        let (mut txn, mut texts) = (lease.txn(), Vec::new());
        for _ in 0..=numbers.below(3) {
            txn = add(txn, &mut texts, &mut numbers);
        }
        let line = format!("txn a at 6: {}", texts.join("; "));
        let reply = reply_of(txn.commit(6));
        assert_eq!(reply, lines.line(&line)?, "{line}");
        done += usize::from(reply.starts_with("ok done "));
    }
    assert!(done > 200, "{done}");
    assert_eq!(typed.line("pairs")?, lines.line("pairs")?);
    let rows = lease.query(6, "select * from rows")?;
    let other = lines.query(6, "select * from rows")?;
    assert_eq!(rows, other);
    assert!(typed.line("check")?.ends_with("missing 0 extra 0\n"));
    Ok(())
}

/// The query with one more condition, and its text.
fn narrow(query: Query, column: &'static str, numbers: &mut Numbers) -> (Query, String) {
    let (low, high) = (numbers.value(column), numbers.value(column));
    match (numbers.below(4), &low, &high) {
        (0, ..) | (_, Value::Null, _) | (_, _, Value::Null) => {
            let text = format!("{column} = {low}");
            (query.equal(column, low), text)
        }
        (1, ..) => {
            let text = format!("{column} >= {low}");
            (query.between(column, Some(low), None), text)
        }
        (2, ..) => {
            let text = format!("{column} <= {low}");
            (query.between(column, None, Some(low)), text)
        }
        _ => {
            let text = format!("{column} between {low} and {high}");
            (query.between(column, Some(low), Some(high)), text)
        }
    }
}

/// A query of the table rows, and its text.
fn some_query(numbers: &mut Numbers) -> (Query, String) {
    let mut query = Query::of("rows");
    let mut columns: Vec<&str> = COLUMNS
        .into_iter()
        .filter(|_| numbers.below(2) == 0)
        .collect();
    match columns.is_empty() {
        true => columns.push("*"),
        false => query = query.columns(columns.clone()),
    }
    let mut conditions = Vec::new();
    if numbers.below(5) == 0 {
        let (a, b) = (numbers.below(4) as i64, numbers.one(&["", "it's"]));
        conditions.push(format!("key = ({a}, {})", Value::from(b)));
        query = query.key((a, b));
    }
    for column in COLUMNS {
        if numbers.below(3) == 0 {
            let (narrower, text) = narrow(query, column, numbers);
            query = narrower;
            conditions.push(text);
        }
    }
    let text = format!("select {} from rows", columns.join(", "));
    match conditions.is_empty() {
        true => (query, text),
        false => (query, format!("{text} where {}", conditions.join(" and "))),
    }
}

#[test]
fn typed_queries_find_what_lines_do() -> Result<(), Error> {
    let (db, mut numbers) = (open()?, Numbers(2));
    let lease = db.lease(5)?;
    let mut found = 0;
    for _ in 0..200 {
        // most of these are refused, since the row is there, or is not
        let _ = add(lease.txn(), &mut Vec::new(), &mut numbers).commit(6);
        let snapshot = lease.snapshot(6)?;
        for _ in 0..10 {
            let (query, text) = some_query(&mut numbers);
            let rows = lease.query(6, &text)?;
            found += rows.len();
            assert_eq!(lease.find(6, &query)?, rows, "{text}");
            assert_eq!(snapshot.query(&query)?, rows, "{text}");
        }
    }
    assert!(found > 1000, "{found}");
    Ok(())
}
