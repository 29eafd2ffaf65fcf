//! Queries and changes in words, which the crate reads as the language does, over the real library.

use cagzhomul::Type::{Int, Text};
use cagzhomul::{Db, Error, Query, SchemaChange, Table};
use std::collections::HashSet;

/// What takes the place of `LONG` in a row: a text of 1,025 bytes.
fn with_long(words: &str) -> String {
    words.replace("LONG", &format!("'{}'", "x".repeat(1025)))
}

const QUERIES: [&str; 55] = [
    "select * from t",
    "select*from t",
    " select  a ,b  from  t ",
    "select a from t where a=-7 and b<='x'and b between 'a' and 'b'",
    "select a, a from t",
    "select b from t where key = (1, '') and a >= 0",
    "select a from t where a = 1 and a = 2",
    "select a from t where a between null and null",
    "select a from t where b = 'it''s'",
    "select from from t",
    "select key from t",
    "select a from t where key >= 1",
    "select a from t where key = ()",
    "select a from t where key = (1)",
    "select a from t where key = ('', 1)",
    "select id from t",
    "select c from t",
    "select i from t",
    "select a from u",
    "select a from t where a = 'x'",
    "select a from t where c = 1",
    "select a from t where a = 9223372036854775808",
    "select a from t where a = -9223372036854775808",
    "select a from t where a = -9223372036854775809",
    "select a from t where a = --1",
    "select a from t where a = - 1",
    "select a from t where a = 1x",
    "select a from t where a = 007",
    "select a from t where a = -0",
    "select a from t where b = 'x",
    "select a from t where b = ''''''",
    "select a from t where b = '\n\t;'",
    "select a from t where a <= 1 and",
    "select a from t where",
    "select a,from t",
    "select from t",
    "select",
    "",
    " ",
    "Select a from t",
    "select a from t;",
    "select a from t -1",
    "select a from t where a = true",
    "select a from t where b = null",
    "select a from t where a => 1",
    "select a from t where a > 1",
    "select t.a from t",
    "select\ta from t",
    "select \u{e4} from t",
    "select a from t where b = '\u{e4}\u{660}'",
    "select a from t where a = \u{661}",
    "select a from t where a between 1 and 2 and b = 'x' and key = (1, 'x')",
    "select a from t where a = nul",
    "select a from t where a = null_",
    "select _a from t",
];

const CHANGES: [&str; 39] = [
    "add index j on t (b)",
    "add index j on t(b,a)",
    "add index j on t ()",
    "add index j on t",
    "add index j on u (b)",
    "add index i on t (b)",
    "add index j on t (c)",
    "add index j on t (a, a)",
    "add index j on t (a, b, a, b, a)",
    "add column c int on t",
    "add column c text default 'it''s' on t",
    "add column c int default 'x' on t",
    "add column c bool default null on t",
    "add column c bool default null on u",
    "add column c float on t",
    "add column c on t",
    "add column a int on t",
    "add column c int default on t",
    "add column ccccccccccccccccccccccccccccccccc int on t",
    "drop index i on t",
    "drop index a on t",
    "drop index j on t",
    "drop column a on t",
    "drop column b on t",
    "drop column c on u",
    "abandon t.i",
    "abandon t . a",
    "abandon t.c",
    "abandon t",
    "abandon",
    "add",
    "drop",
    "",
    "add index j on t (b) ",
    "Add index j on t (b)",
    "drop table t",
    "what",
    "add column c text default 'a;b' on t",
    "add column c text default LONG on t",
];

/// What a random text is made of.
const TOKENS: [&str; 42] = [
    "select",
    "from",
    "t",
    "u",
    "a",
    "b",
    "id",
    "key",
    "where",
    "and",
    "between",
    "*",
    ",",
    "(",
    ")",
    "=",
    ">=",
    "<=",
    ".",
    "1",
    "-2",
    "''",
    "'x'",
    "null",
    "true",
    "add",
    "drop",
    "abandon",
    "index",
    "column",
    "on",
    "int",
    "text",
    "default",
    "i",
    "c",
    "9223372036854775808",
    "'",
    "-",
    ">",
    "\t",
    "1a",
];

/// A store of t with two rows, and a lease on it for the language's server s.
fn store() -> Result<Db, Error> {
    let table = Table::new("t").key("id", Int).key("k", Text);
    let db = Db::open([table.column("a", Int).column("b", Text).index("i", ["a"])])?;
    let cells = [("a", (-7).into()), ("b", "it's".into())] as [(&str, cagzhomul::Value); 2];
    let lease = db.lease(0)?;
    lease.txn().insert("t", (1, ""), cells).commit(0)?;
    lease.txn().insert("t", (2, "x"), [("a", 1)]).commit(0)?;
    assert_eq!(db.line("lease s at 0")?, "ok lease 1 0 10\n");
    drop(lease);
    Ok(db)
}

/// The name of a call's refusal, or that it has none.
fn outcome<T>(result: Result<T, Error>) -> String {
    let Err(error) = result else {
        return "ok".to_string();
    };
    let name = format!("{error:?}");
    let end = name.find(|c: char| !c.is_ascii_alphanumeric());
    name[..end.unwrap_or(name.len())].to_string()
}

/// What the language answers to a line, in the same words.
fn due(db: &Db, line: &str) -> String {
    match db.line(line) {
        Ok(reply) => match reply.strip_prefix("refused ") {
            Some(refused) => refused.split_whitespace().next().unwrap().to_string(),
            None => "ok".to_string(),
        },
        refused => outcome(refused),
    }
}

#[test]
fn queries_are_those_of_the_language() -> Result<(), Error> {
    let db = store()?;
    let lease = db.lease(0)?;
    for words in QUERIES {
        let due = due(&db, &format!("query s at 0: {words}"));
        assert_eq!(outcome(lease.query(0, words)), due, "{words}");
        assert_eq!(outcome(db.query(0, words)), due, "{words}");
    }
    Ok(())
}

#[test]
fn changes_are_those_of_the_language() -> Result<(), Error> {
    for words in CHANGES.map(with_long) {
        let due = due(&store()?, &format!("plan: {words}"));
        assert_eq!(outcome(store()?.change(&words, || 1)), due, "{words}");
    }
    Ok(())
}

#[test]
fn long_words_are_read_in_time() -> Result<(), Error> {
    let db = store()?;
    for part in ["a", "1", "''", "'a'", "( ", "a ", " "] {
        for end in [";", "'", ""] {
            let words = part.repeat(20_000) + end;
            assert_eq!(db.query(0, &words), Err(Error::BadLine), "{part}{end}");
            assert_eq!(due(&db, &format!("query s at 0: {words}")), "BadLine");
        }
    }
    Ok(())
}

/// Numbers below a bound, one after another, the same in each run.
struct Numbers(u64);

impl Numbers {
    fn below(&mut self, bound: usize) -> usize {
        self.0 = self
            .0
            .wrapping_mul(6_364_136_223_846_793_005)
            .wrapping_add(1);
        (self.0 >> 33) as usize % bound
    }

    /// A row with one or two places of it changed.
    fn words(&mut self) -> String {
        let rows = [&QUERIES[..12], &CHANGES[..12]].concat();
        let mut words: Vec<&str> = rows[self.below(rows.len())].split(' ').collect();
        for _ in 0..=self.below(2) {
            let at = self.below(words.len() + 1);
            let end = words.len().min(at + self.below(2));
            let tokens: Vec<&str> = (0..self.below(3)).map(|_| TOKENS[self.below(42)]).collect();
            words.splice(at..end, tokens);
        }
        words.join([" ", " ", "  "][self.below(3)])
    }
}

#[test]
fn words_at_random_are_read_as_the_language_reads_them() -> Result<(), Error> {
    let (db, mut numbers) = (store()?, Numbers(7));
    let mut outcomes = HashSet::new();
    for _ in 0..4_000 {
        let words = numbers.words();
        let wanted = due(&db, &format!("query s at 0: {words}"));
        assert_eq!(outcome(db.query(0, &words)), wanted, "{words}");
        outcomes.insert(wanted);
        let wanted = due(&db, &format!("plan: {words}"));
        let planned = match words.parse::<SchemaChange>() {
            Ok(change) => outcome(db.plan(&[change])),
            Err(bad) => outcome(Err::<(), _>(Error::from(bad))),
        };
        assert_eq!(planned, wanted, "{words}");
        outcomes.insert(wanted);
    }
    let mut kinds = [
        "ok",
        "BadLine",
        "Unknown",
        "NoTable",
        "NotPublic",
        "WrongType",
        "NameTaken",
    ]
    .into_iter();
    assert!(kinds.all(|kind| outcomes.contains(kind)), "{outcomes:?}");
    Ok(())
}

#[test]
fn long_texts_are_refused() -> Result<(), Error> {
    let db = store()?;
    let long = with_long("select a from t where b >= LONG"); // the language finds no row
    assert!(matches!(db.query(0, long), Err(Error::WrongType(Some(_)))));
    let long = with_long("add column c text default LONG on t");
    assert_eq!(db.change(long, || 1).err(), Some(Error::Limit));
    // two leases and two rows, and the lease of the query
    assert_eq!(db.session().log_length()?, 5);
    Ok(())
}

#[test]
fn a_query_in_words_leaves_no_server_and_a_change_no_plan() -> Result<(), Error> {
    let db = store()?;
    let rows = db.query(0, "select a from t where a = 1")?;
    assert_eq!(
        (rows.len(), rows[0].key()),
        (1, &[2.into(), "x".into()][..])
    );
    let other = db.line("query rust_binding at 0: select a from t")?;
    assert_eq!(other, "refused NoServer\n");
    drop(db.change("drop index i on t", || 10)?);
    assert_eq!(db.line("next at 90")?, "refused NoPlan\n");
    Ok(())
}

#[test]
fn a_typed_change_waits_by_its_words() -> Result<(), Error> {
    let db = store()?;
    let change = SchemaChange::add_index("t", "j", ["b", "a"]);
    drop(db.change(&change, || 1)?);
    let waits = |change: &str| {
        let change = change.to_string();
        Some(Error::StillWaiting { change })
    };
    let words = "add index j on t (b, a)";
    assert_eq!(db.change(change, || 1).err(), waits(words));
    assert_eq!(db.change("what", || 1).err(), waits(words));
    assert_eq!(
        db.change("drop index i on t;", || 1).err(),
        Some(Error::BadLine)
    );
    db.resume(|| 10).next().expect("it begins")?;
    assert_eq!(db.element("t", "j")?, 4);
    let other = store()?;
    drop(other.change(" drop  index i on t", || 1)?);
    assert_eq!(
        other.change("what", || 1).err(),
        waits(" drop  index i on t")
    );
    let rows = db.query(10, Query::of("t").key((1, "")).columns(["b"]))?;
    assert_eq!(rows, db.query(10, "select b from t where key = (1, '')")?);
    Ok(())
}
