//! What a refusal tells: when a lease ended, and which row a conflict is on.

mod shared;

use cagzhomul::{Db, Error, Key, KeyRange, Query, Receipt, RowKey, Table, Txn, Type, Value};
use shared::people;

/// A lease of ten moments from 5 on ends at 15.
#[test]
fn a_lease_that_has_ended() -> Result<(), Error> {
    let db = people();
    let lease = db.lease(5)?;
    lease.txn().insert("people", 1, ()).commit(5)?;
    let all = Query::of("people");
    let delete = || lease.txn().delete("people", 1);
    let calls: [&dyn Fn(u64) -> Option<Error>; 7] = [
        &|now| delete().write(now).err(),
        &|now| delete().commit(now).err(),
        &|now| lease.find(now, &all).err(),
        &|now| lease.query(now, "select * from people").err(),
        &|now| lease.page(now, &all, &KeyRange::all(), 1).err(),
        &|now| lease.snapshot(now).err(),
        &|now| {
            let town = |_: Option<&cagzhomul::Row>| Some([("town", "Ulm")]);
            lease.modify("people", 1, town, now).err()
        },
    ];
    let until = 15;
    for call in calls {
        for now in [15, 17, 1 << 62] {
            assert_eq!(call(now), Some(Error::LeaseEnded { until, now }));
        }
    }
    let prepared = delete().prepare()?;
    db.lease(20)?; // an entry of the moment 20, which then counts at each earlier one
    let now = 20;
    for call in calls {
        assert_eq!(call(6), Some(Error::LeaseEnded { until, now }));
    }
    let ended = prepared.commit(6).unwrap_err();
    assert_eq!(ended, Error::LeaseEnded { until, now });
    assert_eq!(
        ended.to_string(),
        "the lease has ended: at 15, and now is 20"
    );
    assert_eq!((db.session().log_length()?, db.check()?.rows), (3, 1));
    Ok(())
}

/// Whatever was read of a row has changed, the conflict is on it, by the values of its key.
#[test]
fn a_conflict_on_a_row() -> Result<(), Error> {
    use Type::{Bool, Int, Text};
    let zeros = "\0".repeat(1024);
    let keys: [(&[Type], Key); 8] = [
        (&[Int], 7.into()),
        (&[Int], i64::MIN.into()),
        (&[Text], "L'Aquila".into()),
        (&[Text], "".into()),
        (&[Bool], true.into()),
        (&[Int, Text], (1, "a\0\u{fc}").into()),
        (&[Text, Bool, Int, Text], ("\0", false, 0, "\0\u{1}").into()),
        // its pairs have keys of over 8,000 bytes
        (&[Text; 4], [&zeros, &zeros, &zeros, &zeros].into()),
    ];
    for (types, key) in keys {
        let mut rows = Table::new("rows").column("n", Int).column("m", Int);
        for (place, kind) in types.iter().enumerate() {
            rows = rows.key(format!("k{place}"), *kind);
        }
        let db = Db::open([Table::new("other").key("id", Int), rows])?;
        let lease = db.lease(0)?;
        let row = RowKey::new("rows", key.clone());
        let changes = [
            lease.txn().insert("rows", key.clone(), ()),
            lease.txn().update("rows", key.clone(), [("m", 1)]),
            lease.txn().delete("rows", key.clone()),
        ];
        for change in changes {
            let mut txn = lease.txn();
            txn.get("rows", key.clone())?;
            change.commit(0)?;
            let refused = txn.insert("other", 1, ()).commit(0).unwrap_err();
            let text = format!("a pair changed since it was read: {row}");
            assert_eq!(refused.to_string(), text);
            let row = Some(row.clone());
            assert_eq!(refused, Error::Conflict { row });
        }
    }
    Ok(())
}

/// Of several rows that have changed, the first by table and key is reported.
#[test]
fn the_first_row_of_several() -> Result<(), Error> {
    let table = |name| Table::new(name).key("id", Type::Int).column("n", Type::Int);
    let db = Db::open([table("a"), table("b")])?;
    let lease = db.lease(0)?;
    let all = [("b", 0), ("a", 2), ("b", -1), ("a", 1)];
    let inserted = all.iter().fold(lease.txn(), |txn, &(name, id)| {
        txn.insert(name, id, [("n", 0)])
    });
    inserted.commit(0)?;
    let set = |rows: &[(&str, i64)], n: i64| -> Txn<'_> {
        rows.iter().fold(lease.txn(), |txn, &(name, id)| {
            txn.update(name, id, [("n", n)])
        })
    };
    for (changed, first) in [
        (vec![("b", -1), ("a", 2)], ("a", 2)),
        (vec![("a", 2), ("a", 1)], ("a", 1)),
        (vec![("b", 0), ("b", -1)], ("b", -1)),
        (vec![("b", 0)], ("b", 0)),
    ] {
        let txn = set(&all, 1).prepare()?;
        set(&changed, 2).commit(0)?;
        let row = Some(RowKey::new(first.0, first.1));
        assert_eq!(txn.commit(0), Err(Error::Conflict { row }));
        set(&changed, 0).commit(0)?;
    }
    let txn = set(&all, 1).prepare()?;
    set(&all, 2).commit(0)?;
    set(&all, 0).commit(0)?; // what is as it was read is no conflict
    assert_eq!(txn.commit(0), Ok(Receipt { place: 13 }));
    Ok(())
}

/// Two transactions on one row: the second learns which it is.
#[test]
fn the_second_of_two_transactions() -> Result<(), Error> {
    let db = people();
    let lease = db.lease(5)?;
    lease
        .txn()
        .insert("people", 1, [("town", "Ulm")])
        .write(5)?;
    let to = |town| lease.txn().update("people", 1, [("town", town)]).prepare();
    let (first, second) = (to("Bonn")?, to("Hof")?);
    assert_eq!(first.commit(5), Ok(Receipt { place: 3 }));
    match second.commit(5) {
        Err(Error::Conflict { row: Some(row) }) => {
            assert_eq!((row.table.as_str(), row.key), ("people", 1.into()));
        }
        other => panic!("{other:?}"),
    }
    let rows = db.query(5, "select town from people")?;
    assert_eq!(rows[0].get("town"), Some(&Value::from("Bonn")));
    Ok(())
}
