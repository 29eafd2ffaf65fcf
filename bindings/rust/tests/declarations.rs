//! Which declaration an `Error::BadTable` is for.

use cagzhomul::layer::{Layer, MemoryStore};
use cagzhomul::Type::{Int, Text};
use cagzhomul::{BadDeclaration, Db, Error, Table, TableCause};

/// What a `BadDeclaration` says of tables: the table, the column or index, the cause and the text.
type Bad = (
    Vec<Table>,
    Option<&'static str>,
    Option<&'static str>,
    TableCause,
    &'static str,
);

/// Tables that may not be declared.
fn declarations() -> Vec<Bad> {
    let t = || {
        Table::new("t")
            .key("id", Int)
            .column("a", Int)
            .column("b", Text)
            .index("i", ["a"])
            .index("j", ["b"])
    };
    let u = || Table::new("u").key("id", Int).column("a", Int);
    let bare = |name: &str| Table::new(name).key("id", Int);
    let many = |table: Table, columns: usize| {
        (0..columns).fold(table, |it, at| it.column(format!("c{at}"), Int))
    };
    let names: Vec<Table> = (0..17).map(|at| bare(&format!("t{at}"))).collect();
    let listed = |name: &str| name.to_string();
    vec![
        (vec![], None, None, TableCause::NoTable, "no table is declared"),
        (names, Some("t16"), None, TableCause::TooManyTables, "t16: more than 16 tables are declared"),
        (vec![t(), bare(""), t()], Some("t"), None, TableCause::TableTwice, "t: two tables have this name"),
        (vec![t(), bare("a b")], Some("a b"), None, TableCause::TableName, "a b: it is no name: 1 to 32 bytes, an ASCII letter and then letters, digits and underscores"),
        (vec![t(), Table::new("u")], Some("u"), None, TableCause::KeyLength, "u: the key has no column, or more than 4"),
        (vec![many(u(), 32)], Some("u"), None, TableCause::TooManyColumns, "u: more than 32 columns besides the key"),
        (vec![t(), (0..17).fold(u(), |it, at| it.index(format!("i{at}"), ["a"]))], Some("u"), None, TableCause::TooManyIndexes, "u: more than 16 indexes"),
        (vec![t(), u().index("1", ["a"])], Some("u"), Some("1"), TableCause::Name, "u.1: it is no name: 1 to 32 bytes, an ASCII letter and then letters, digits and underscores"),
        (vec![t(), u().column("id", Int)], Some("u"), Some("id"), TableCause::NameTwice, "u.id: two columns or indexes of the table have this name"),
        (vec![t(), u().column("b", Int).key("b", Int)], Some("u"), Some("b"), TableCause::NameTwice, "u.b: two columns or indexes of the table have this name"),
        (vec![t(), u().index("i", ["a"]).index("j", [] as [&str; 0])], Some("u"), Some("j"), TableCause::ListLength, "u.j: the index is over no column, or more than 4"),
        (vec![many(u(), 2).index("i", ["c0", "a", "c1", "a"]), t()], Some("u"), Some("i"), TableCause::ListedTwice { listed: listed("a") }, "u.i: the index has the column a twice"),
        (vec![t(), u().index("i", ["a", "id"])], Some("u"), Some("i"), TableCause::NotAColumn { listed: listed("id") }, "u.i: the index has id, which is no column of the table outside its key"),
    ]
}

#[test]
fn tables_that_may_not_be_declared() -> Result<(), Error> {
    for (tables, table, name, cause, text) in declarations() {
        for refused in [
            Db::open(tables.clone()).err(),
            Layer::open(MemoryStore::new(), tables).err(),
        ] {
            let Some(Error::BadTable(Some(bad))) = refused else {
                panic!("nothing is wrong: {text}");
            };
            let BadDeclaration {
                table: of,
                name: named,
                cause: found,
                ..
            } = &*bad;
            assert_eq!(
                (of.as_deref(), named.as_deref(), found),
                (table, name, &cause)
            );
            assert_eq!(
                (bad.to_string(), Error::BadTable(Some(bad)).to_string()),
                (text.to_string(), text.to_string())
            );
        }
    }
    let db = Db::open([Table::new("shops").key("id", Int)])?;
    let other = Db::open_at(
        &db.session().checkpoint()?,
        [Table::new("t").key("id", Int)],
    );
    assert_eq!(other.err(), Some(Error::BadTable(None)));
    let plain_text = "the declaration breaks a limit, or uses a name twice";
    assert_eq!(Error::BadTable(None).to_string(), plain_text);
    Ok(())
}
