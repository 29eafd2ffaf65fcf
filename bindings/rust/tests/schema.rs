//! Versions of the schema as data, over the real library. All are worked out by hand.

mod shared;

use cagzhomul::Type::{Bool, Int, Text};
use cagzhomul::{Db, Error, Schema, SchemaElement, SchemaKind, SchemaTable, Session, State};
use cagzhomul::{Query, Step, Table, Type, Value};
use shared::{drive, people};
use std::cell::Cell;

fn table(number: u32, name: &str, key: &[(&str, Type)]) -> SchemaTable {
    let key = key.iter().map(|(name, kind)| (name.to_string(), *kind));
    SchemaTable {
        number,
        name: name.to_string(),
        key: key.collect(),
    }
}

/// A public element of this number, table and name.
fn public(number: u32, table: &str, name: &str, what: SchemaKind) -> SchemaElement {
    SchemaElement {
        number,
        table: table.to_string(),
        name: name.to_string(),
        what,
        state: State::Public,
        is_dropped: false,
    }
}

fn column(kind: Type, default: Option<Value>) -> SchemaKind {
    SchemaKind::Column { kind, default }
}

fn index(columns: &[&str]) -> SchemaKind {
    let columns = columns.iter().map(|name| name.to_string()).collect();
    SchemaKind::Index { columns }
}

/// The schema of the store of people: their towns, and then these elements.
fn of_people(elements: impl IntoIterator<Item = SchemaElement>, next: u32) -> Schema {
    let town = public(1, "people", "town", column(Text, None));
    Schema {
        tables: vec![table(1, "people", &[("id", Int)])],
        elements: [town].into_iter().chain(elements).collect(),
        next,
    }
}

fn by_town(state: State, is_dropped: bool) -> SchemaElement {
    SchemaElement {
        state,
        is_dropped,
        ..public(2, "people", "by_town", index(&["town"]))
    }
}

#[test]
fn what_is_declared_is_public() -> Result<(), Error> {
    let rows = Table::new("rows").key("a", Int).key("b", Text);
    let rows = rows.column("n", Int).column("s", Text).column("f", Bool);
    let first = Table::new("first").key("id", Int).column("c", Int);
    let db = Db::open([first, rows.index("by_s", ["s", "n"])])?;
    let lease = db.lease(5)?;
    let wanted = Schema {
        tables: vec![
            table(1, "first", &[("id", Int)]),
            table(2, "rows", &[("a", Int), ("b", Text)]),
        ],
        elements: vec![
            public(1, "first", "c", column(Int, None)),
            public(2, "rows", "n", column(Int, None)),
            public(3, "rows", "s", column(Text, None)),
            public(4, "rows", "f", column(Bool, None)),
            public(5, "rows", "by_s", index(&["s", "n"])),
        ],
        next: 6,
    };
    assert_eq!(db.session().schema()?, wanted);
    assert_eq!(lease.schema(), &wanted);
    assert_eq!(
        (db.element("rows", "by_s"), db.session().log_length()),
        (Ok(5), Ok(1))
    );
    let session = Session::open()?;
    session.line("table people (id int key, town text)")?;
    assert_eq!(session.schema(), Err(Error::NotOpened));
    session.line("open")?;
    assert_eq!(session.schema()?, of_people([], 2));
    Ok(())
}

#[test]
fn each_kind_of_column_is_there_with_its_default() -> Result<(), Error> {
    let kinds = [
        ("n", "int", Int, None),
        ("m", "int default -7", Int, Some(Value::from(-7))),
        (
            "s",
            "text default 'it''s \u{fc}'",
            Text,
            Some("it's \u{fc}".into()),
        ),
        ("e", "text default ''", Text, Some("".into())),
        ("f", "bool default false", Bool, Some(false.into())),
        ("g", "bool", Bool, None),
    ];
    let db = Db::open([Table::new("t").key("id", Int)])?;
    let mut wanted = Schema {
        tables: vec![table(1, "t", &[("id", Int)])],
        elements: Vec::new(),
        next: 1,
    };
    for (number, (name, words, kind, default)) in (1..).zip(kinds) {
        db.line(&format!(
            "publish at {}: add column {name} {words} on t",
            number * 10
        ))?;
        let state = State::DeleteOnly;
        let entered = public(number, "t", name, column(kind, default));
        wanted.elements.push(SchemaElement { state, ..entered });
        wanted.next += 1;
        assert_eq!(db.session().schema()?, wanted);
    }
    Ok(())
}

#[test]
fn each_state_of_a_change_is_seen_and_a_lease_keeps_its_own() -> Result<(), Error> {
    let (db, now) = (people(), Cell::new(5));
    let adding = [State::DeleteOnly, State::WriteOnly, State::Public];
    let dropping = [State::WriteOnly, State::DeleteOnly];
    let mut wanted = vec![of_people([], 2)];
    wanted.extend(adding.map(|state| of_people([by_town(state, false)], 3)));
    wanted.extend(dropping.map(|state| of_people([by_town(state, true)], 3)));
    wanted.push(of_people([], 3));
    let mut seen = vec![db.session().schema()?];
    let mut before = db.lease(5)?;
    for change in [
        "add index by_town on people (town)",
        "drop index by_town on people",
    ] {
        for step in db.change(change, || now.get())? {
            if let Step::Waiting { until } = step? {
                now.set(until);
            }
            let newest = db.session().schema()?;
            // a lease that was granted before a publication has still the version before it
            assert_eq!(Some(before.schema()), seen.last());
            if Some(&newest) != seen.last() {
                seen.push(newest);
                before = db.lease(now.get())?;
            }
        }
    }
    assert_eq!(seen, wanted);
    Ok(())
}

#[test]
fn a_lease_of_the_version_before_has_its_columns() -> Result<(), Error> {
    let db = people();
    let old = db.lease(10)?;
    db.line("publish at 10: add column age int default 7 on people")?;
    let age = SchemaElement {
        state: State::DeleteOnly,
        ..public(2, "people", "age", column(Int, Some(7.into())))
    };
    let new = db.lease(10)?;
    assert_eq!((old.schema(), old.version()), (&of_people([], 2), 1));
    assert_eq!((new.schema(), new.version()), (&of_people([age], 3), 2));
    assert_eq!(&db.session().schema()?, new.schema());
    old.txn()
        .insert("people", 1, [("town", "Ulm")])
        .commit(10)?;
    // the columns of all rows are the public ones: neither an index nor a column that is only deleted
    let all = Query::of("people");
    let rows = new.find(10, &all)?;
    assert_eq!(rows[0].cells(), [("town".to_string(), "Ulm".into())]);
    assert_eq!(old.find(10, &all)?, rows);
    let (column, is_key) = (Some("age".to_string()), false);
    assert_eq!(
        new.find(10, &all.columns(["age"])),
        Err(Error::NotPublic { column, is_key })
    );
    Ok(())
}

#[test]
fn what_is_abandoned_is_dropped_and_its_number_is_spent() -> Result<(), Error> {
    let (db, now) = (people(), Cell::new(20));
    let step = |change, now| db.change(change, || now).map(drop);
    step("add index by_town on people (town)", 10)?;
    step("abandon people.by_town", 20)?;
    let dropped = by_town(State::DeleteOnly, true);
    assert_eq!(db.session().schema()?, of_people([dropped], 3));
    drive(&db, "add column name bool on people", &now)?;
    let name = public(3, "people", "name", column(Bool, None));
    assert_eq!(db.session().schema()?, of_people([name], 4));
    assert_eq!(db.element("people", "by_town"), Err(Error::Unknown));
    Ok(())
}

#[test]
fn a_store_at_a_checkpoint_has_its_schema_and_no_other_tables() -> Result<(), Error> {
    let db = people();
    db.line("publish at 10: add column age int on people")?;
    let (saved, schema) = (db.session().checkpoint()?, db.session().schema()?);
    let table = |name, key, kind| Table::new(name).key(key, kind);
    // columns outside the key come and go: those of the checkpoint count
    for people in [
        table("people", "id", Int),
        table("people", "id", Int).column("town", Text),
    ] {
        let later = Db::open_at(&saved, [people])?;
        assert_eq!(later.session().schema()?, schema);
        assert_eq!(later.query(20, "select * from people")?, []);
    }
    for others in [
        vec![],
        vec![table("person", "id", Int)],
        vec![table("people", "key", Int)],
        vec![table("people", "id", Text)],
        vec![table("people", "id", Int).key("n", Int)],
        vec![table("people", "id", Int), table("other", "id", Int)],
    ] {
        let refused = Db::open_at(&saved, others.clone()).err();
        assert_eq!(refused, Some(Error::BadTable(None)), "{others:?}");
    }
    let refused = Db::open_at(&saved[1..], []).err();
    assert_eq!(refused, Some(Error::BadCheckpoint));
    Ok(())
}
