//! Queries that are read page by page.

use cagzhomul::{Db, Error, Key, KeyRange, Query, Row, Snapshot, Table, Type, Value};

/// The rows, by their two key columns and `a`.
const ROWS: [(i64, i64, Option<i64>); 5] = [
    (1, 1, Some(5)),
    (1, 2, None),
    (2, 1, Some(5)),
    (2, 7, Some(9)),
    (3, 0, Some(5)),
];

fn five_rows() -> Result<Db, Error> {
    let table = Table::new("t").key("g", Type::Int).key("id", Type::Int);
    let db = Db::open([table.column("a", Type::Int)])?;
    let lease = db.lease(0)?;
    for (g, id, a) in ROWS {
        let cells: Vec<_> = a.map(|a| ("a", Value::from(a))).into_iter().collect();
        lease.txn().insert("t", (g, id), cells).commit(0)?;
    }
    drop(lease);
    Ok(db)
}

fn keys_of(rows: &[Row]) -> Vec<(i64, i64)> {
    let number = |value: &Value| match value {
        Value::Int(number) => *number,
        _ => i64::MIN,
    };
    let rows = rows.iter().map(Row::key);
    rows.map(|key| (number(&key[0]), number(&key[1]))).collect()
}

/// The keys of each page, by the snapshot's iterator.
fn paged(
    snapshot: &Snapshot,
    query: &Query,
    range: &KeyRange,
    size: u32,
) -> Result<Vec<Vec<(i64, i64)>>, Error> {
    let pages = snapshot.pages(query, range, size);
    pages.map(|rows| Ok(keys_of(&rows?))).collect()
}

#[test]
fn pages_are_the_whole() -> Result<(), Error> {
    let db = five_rows()?;
    let snapshot = db.lease(0)?.snapshot(0)?;
    let (query, all) = (Query::of("t"), KeyRange::all());
    assert_eq!(
        paged(&snapshot, &query, &all, 2)?,
        [vec![(1, 1), (1, 2)], vec![(2, 1), (2, 7)], vec![(3, 0)]]
    );
    let whole = snapshot.query(&query)?;
    assert_eq!(keys_of(&whole), ROWS.map(|(g, id, _)| (g, id)));
    for (size, count) in [(1, 5), (2, 3), (3, 2), (4, 2), (5, 1), (1000, 1)] {
        let pages: Vec<_> = snapshot
            .pages(&query, &all, size)
            .collect::<Result<_, _>>()?;
        assert_eq!((pages.len(), pages.concat()), (count, whole.clone()));
    }
    Ok(())
}

#[test]
fn conditions_and_ranges_pass_over_rows() -> Result<(), Error> {
    let db = five_rows()?;
    let lease = db.lease(0)?;
    let snapshot = lease.snapshot(0)?;
    let (t, fives) = (Query::of("t"), Query::of("t").equal("a", 5));
    let all = KeyRange::all;
    for (query, range, limit, keys, more) in [
        (&fives, all(), 2, vec![(1, 1), (2, 1)], true),
        (&fives, all().after((2, 1)), 2, vec![(3, 0)], false),
        (
            &t,
            all().after((1, 2)).before((2, 7)),
            9,
            vec![(2, 1)],
            false,
        ),
        (&t, all().before((2, 1)), 1, vec![(1, 1)], true),
        (&t, all().after((1, 5)), 1, vec![(2, 1)], true),
        (&t, all().after((3, 0)), 9, vec![], false),
        (&t, all().after((2, 7)).before((1, 2)), 9, vec![], false),
    ] {
        let page = snapshot.page(query, &range, limit)?;
        assert_eq!((keys_of(&page.rows), page.more), (keys, more), "{range:?}");
        assert_eq!(lease.page(0, query, &range, limit), Ok(page), "{range:?}");
    }
    let none = all().before((1, 1));
    assert_eq!(paged(&snapshot, &t, &none, 3)?, [vec![]]);
    Ok(())
}

#[test]
fn pages_are_refused() -> Result<(), Error> {
    let db = five_rows()?;
    let lease = db.lease(0)?;
    let snapshot = lease.snapshot(0)?;
    let (t, all, nobody) = (Query::of("t"), KeyRange::all(), Query::of("nobody"));
    for limit in [0, 1001, u32::MAX] {
        assert_eq!(snapshot.page(&nobody, &all, limit), Err(Error::BadCount));
        assert_eq!(lease.page(0, &t, &all, limit), Err(Error::BadCount));
    }
    let (until, now) = (lease.until(), 10_000);
    assert_eq!(
        lease.page(now, &t, &all, 0),
        Err(Error::LeaseEnded { until, now })
    );
    let short = KeyRange::all().after(1);
    assert_eq!(snapshot.page(&nobody, &short, 1), Err(Error::NoTable));
    let (column, is_key) = (Some("b".to_string()), false);
    let refused = snapshot.page(&t.clone().columns(["b"]), &short, 1);
    assert_eq!(refused, Err(Error::NotPublic { column, is_key }));
    let keys: [Key; 4] = [
        1.into(),
        (1, "x").into(),
        (1, Value::Null).into(),
        (1, 2, 3).into(),
    ];
    for key in keys {
        let (after, before) = (
            KeyRange::all().after(key.clone()),
            KeyRange::all().before(key),
        );
        for range in [after, before] {
            let refused = snapshot.page(&t, &range, 1);
            assert!(matches!(refused, Err(Error::WrongType(Some(_)))));
        }
    }
    let mut pages = snapshot.pages(&nobody, &all, 1);
    assert_eq!(pages.next(), Some(Err(Error::NoTable)));
    assert_eq!(pages.next(), None);
    Ok(())
}
