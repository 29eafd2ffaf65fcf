//! A writer whose rows outlive it, until it is killed: it goes on from the checkpoint and the log in the
//! folder that is named, and inserts rows 0, 1, .., each by a transaction of its own. A line has a
//! row's number once it is on the disk; at each fiftieth the log begins anew.

use cagzhomul::{recover, Error, OpenOptions, Table, Type};
use std::error::Error as AnyError;
use std::path::PathBuf;

const RESTART: u64 = 50;

fn main() -> Result<(), Box<dyn AnyError>> {
    let folder = PathBuf::from(std::env::args().nth(1).ok_or("a folder is to be named")?);
    let (checkpoint, log) = (folder.join("checkpoint"), folder.join("log"));
    let people = Table::new("people")
        .key("id", Type::Int)
        .column("town", Type::Text);
    let options = OpenOptions::new().lease_length(1000);
    let (db, mut log) = recover(&options, [people], &checkpoint, &log)?;
    let (lease, mut done) = (db.lease(0)?, 0);
    for row in 0_i64.. {
        match lease
            .txn()
            .insert("people", row, [("town", "Ulm")])
            .commit(0)
        {
            Err(Error::Duplicate { .. }) => continue,
            other => other?,
        };
        log.append(db.session())?;
        println!("{row}");
        done += 1;
        if done % RESTART == 0 {
            log.restart(db.session(), &checkpoint)?;
        }
    }
    Ok(())
}
