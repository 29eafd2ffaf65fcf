//! An index enters while a server with an older version writes.

const LINES: [&str; 13] = [
    "table people (id int key, town text)",
    "open",
    "lease a at 5",
    "txn a at 5: insert people (1) set town = 'Ulm'; insert people (2) set town = 'Bonn'",
    "plan: add index by_town on people (town)",
    "next at 10",
    "txn a at 14: insert people (3) set town = 'Ulm'",
    "next at 20",
    "reorganise people.by_town at 30 pieces 1",
    "work people.by_town at 30 limit 100",
    "next at 30",
    "lease b at 30",
    "query b at 30: select town from people where town = 'Ulm'",
];

fn main() -> Result<(), cagzhomul::Error> {
    let session = cagzhomul::Session::open()?;
    for line in LINES {
        print!("{}", session.line(line)?);
    }
    Ok(())
}
