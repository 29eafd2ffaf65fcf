//! Checkpoints with a digest, and log files.

use cagzhomul::{has_digest, recover, Db, Error, LogError, LogFile, OpenOptions, Table, Type};
use std::error::Error as AnyError;
use std::fs;
use std::path::{Path, PathBuf};

type Tried = Result<(), Box<dyn AnyError>>;

fn people() -> [Table; 1] {
    [Table::new("people")
        .key("id", Type::Int)
        .column("town", Type::Text)]
}

/// A folder of a test, which is empty, and goes with this.
struct Folder(PathBuf);

impl Folder {
    fn new(name: &str) -> std::io::Result<Folder> {
        let path = std::env::temp_dir().join(format!("cagzhomul-{name}-{}", std::process::id()));
        fs::create_dir_all(&path)?;
        Ok(Folder(path))
    }

    fn log(&self) -> PathBuf {
        self.0.join("log")
    }

    fn recovered(&self) -> Result<(Db, LogFile), LogError> {
        let options = OpenOptions::new();
        recover(&options, people(), self.0.join("checkpoint"), self.log())
    }

    /// Inserts a row, which is in the log then.
    fn insert(&self, row: i64) -> Tried {
        let (db, mut log) = self.recovered()?;
        let lease = db.lease(0)?;
        lease
            .txn()
            .insert("people", row, [("town", "Ulm")])
            .commit(0)?;
        Ok(log.append(db.session())?)
    }

    fn rows(&self) -> Result<usize, Box<dyn AnyError>> {
        Ok(self.recovered()?.0.query(0, "select * from people")?.len())
    }
}

impl Drop for Folder {
    fn drop(&mut self) {
        let _ = fs::remove_dir_all(&self.0);
    }
}

fn flipped(bytes: &[u8], bit: usize) -> Vec<u8> {
    let mut flipped = bytes.to_vec();
    flipped[bit / 8] ^= 1 << (bit % 8);
    flipped
}

#[test]
fn no_flipped_bit_no_cut_and_no_added_byte_opens() -> Tried {
    let db = Db::open(people())?;
    db.lease(0)?
        .txn()
        .insert("people", 1, [("town", "Ulm")])
        .commit(0)?;
    let saved = db.session().checkpoint()?;
    assert_eq!(has_digest(&saved), Ok(true));
    let longer = [saved.as_slice(), &[0]].concat();
    let flips = (0..8 * saved.len()).map(|bit| flipped(&saved, bit));
    let cuts = (0..saved.len()).map(|length| saved[..length].to_vec());
    for damaged in flips.chain(cuts).chain([longer]) {
        assert_eq!(
            Db::open_at(&damaged, people()).err(),
            Some(Error::BadCheckpoint)
        );
    }
    let old = &saved[8..saved.len() - 32];
    assert_eq!(has_digest(old), Ok(false));
    assert_eq!(Db::open_at(old, people())?.session().checkpoint()?, saved);
    assert_eq!(has_digest(&saved[..50]), Err(Error::BadCheckpoint));
    Ok(())
}

#[test]
fn what_was_appended_comes_back_behind_each_checkpoint() -> Tried {
    let folder = Folder::new("log")?;
    folder.insert(1)?;
    let before = fs::read(folder.log())?;
    let (db, mut log) = folder.recovered()?;
    log.restart(db.session(), folder.0.join("checkpoint"))?;
    drop((db, log));
    assert_eq!(fs::read(folder.log())?, b"");
    folder.insert(2)?;
    assert_eq!(folder.rows()?, 2);
    // as after a kill between the two files, and with a log that ends before the checkpoint
    for length in [before.len(), before.len() - 1] {
        fs::write(folder.log(), &before[..length])?;
        assert_eq!(folder.rows()?, 1);
    }
    folder.insert(3)?;
    assert_eq!(folder.rows()?, 2);
    Ok(())
}

#[test]
fn a_log_is_used_up_to_what_is_cut_or_damaged() -> Tried {
    let folder = Folder::new("cut")?;
    folder.insert(1)?;
    folder.insert(2)?;
    let bytes = fs::read(folder.log())?;
    let size = |at: usize| 48 + usize::from(bytes[at + 15]) + 256 * usize::from(bytes[at + 14]);
    let mut ends = vec![0];
    while ends[ends.len() - 1] < bytes.len() {
        let end = ends[ends.len() - 1];
        ends.push(end + size(end));
    }
    assert_eq!(ends.len(), 5); // two leases, and two rows
    let sound = |at: usize| ends.iter().filter(|&&end| end <= at).count() - 1;
    let look = |data: &[u8], places: usize| -> Tried {
        fs::write(folder.log(), data)?;
        let (db, log) = folder.recovered()?;
        let lost = (data.len() - ends[places]) as u64;
        assert_eq!((log.place(), log.lost()), (places as u64, lost));
        assert_eq!(db.session().log_length()?, places as u64);
        Ok(())
    };
    for length in (0..bytes.len()).step_by(7) {
        look(&bytes[..length], sound(length))?;
    }
    for bit in (0..8 * bytes.len()).step_by(29) {
        look(&flipped(&bytes, bit), sound(bit / 8))?;
    }
    Ok(())
}

#[test]
fn a_log_that_does_not_go_on_is_refused() -> Tried {
    let folder = Folder::new("bad")?;
    folder.insert(1)?;
    let bytes = fs::read(folder.log())?;
    fs::write(folder.log(), &bytes[82..])?; // without the lease, of 34 bytes and 48
    let bad = folder.recovered().err();
    assert!(
        matches!(
            bad,
            Some(LogError::BadLog {
                place: 2,
                length: 0
            })
        ),
        "{bad:?}"
    );
    fs::write(folder.log(), &bytes)?;
    let others = [Table::new("others").key("name", Type::Text)];
    let bad = recover(
        &OpenOptions::new(),
        others,
        Path::new("/nonexistent"),
        folder.log(),
    )
    .err();
    assert!(
        matches!(
            bad,
            Some(LogError::BadLog {
                place: 2,
                length: 1
            })
        ),
        "{bad:?}"
    );
    let missing = folder.0.join("missing").join("log");
    let unread = recover(&OpenOptions::new(), people(), &missing, &missing).err();
    assert!(matches!(unread, Some(LogError::File(_))), "{unread:?}");
    Ok(())
}
