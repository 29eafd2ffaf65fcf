//! The layer over a file of SQLite: keys and pages at their edges, a whole change beside writers, programs
//! that are killed, and a file that is shared with Python.

mod layer_shared;

use cagzhomul::layer::{Act, Draft, Layer, Page, Pair, Range, SqliteStore, Store, StoreError};
use cagzhomul::Type::{Int, Text};
use cagzhomul::{Query, SchemaChange, Table};
use layer_shared::{change_beside_writers, damage_is_counted, number, opened, row, sound};
use std::collections::BTreeSet;
use std::env;
use std::fs;
use std::io::{BufRead, BufReader, Write};
use std::path::PathBuf;
use std::process::{Child, Command, Stdio};
use std::sync::mpsc::{self, Receiver};
use std::thread;
use std::time::Duration;

/// A folder that is removed at the end.
struct Folder(PathBuf);

impl Folder {
    fn new(name: &str) -> Folder {
        // a disk that others keep busy makes no test slow
        let memory = PathBuf::from("/dev/shm");
        let root = if memory.is_dir() {
            memory
        } else {
            env::temp_dir()
        };
        let folder = root.join(format!("cagzhomul-{name}-{}", std::process::id()));
        fs::create_dir_all(&folder).unwrap();
        Folder(folder)
    }

    fn file(&self) -> PathBuf {
        self.0.join("it.db")
    }
}

impl Drop for Folder {
    fn drop(&mut self) {
        let _ = fs::remove_dir_all(&self.0);
    }
}

const LONG: &[u8] = &[0xff; 2000];
const KEYS: [&[u8]; 8] = [b"", b"\0", b"\0\xff", b"a", b"a\0", b"\x80", b"\xff", LONG];
/// Above all keys.
const END: &[u8] = &[0xff; 2001];

/// A store with all these keys, of which each has its own first byte as its value, or none.
fn filled(folder: &Folder) -> SqliteStore {
    let store = SqliteStore::open(folder.file()).unwrap();
    let put = (0..KEYS.len()).map(|at| (pair(at).0, Some(pair(at).1)));
    let put = Draft {
        write: put.collect(),
        ..Draft::default()
    };
    store.apply(&put).unwrap();
    store
}

fn pair(at: usize) -> Pair {
    let key = KEYS[at];
    (key.to_vec(), key.iter().copied().take(1).collect())
}

#[test]
fn checks_by_pages_of_a_file() {
    let folder = Folder::new("checks");
    damage_is_counted(SqliteStore::open(folder.file()).unwrap());
}

#[test]
fn pages_of_a_file() {
    let folder = Folder::new("pages");
    let store = filled(&folder);
    // a range, its pairs, and the end of its page
    let cases: [(Range, Vec<usize>, &[u8]); 6] = [
        (range(b"", END, 99), (0..8).collect(), END),
        (range(b"", END, 7), (0..7).collect(), b"\xff\0"),
        (range(b"", b"\0", 9), vec![0], b"\0"),
        (range(b"\0", b"b", 2), vec![1, 2], b"\0\xff\0"),
        (range(b"a\0", b"\xff", 9), vec![4, 5], b"\xff"),
        (range(b"b", b"a", 1), vec![], b"a"),
    ];
    for (range, due, end) in cases {
        let found = store.read(&[], std::slice::from_ref(&range)).unwrap();
        let (pairs, end) = (due.into_iter().map(pair).collect(), end.to_vec());
        assert_eq!(found.pages, [Page { pairs, end }], "{range:?}");
    }
}

#[test]
fn points_of_a_file() {
    let folder = Folder::new("points");
    let store = filled(&folder);
    let points = [pair(0).0, b"none".to_vec(), pair(1).0];
    assert_eq!(store.read(&points, &[]).unwrap().pairs, [pair(0), pair(1)]);
    // an empty value is not a missing one
    let mut draft = Draft {
        compare: [(pair(3).0, Some(pair(3).1)), (pair(0).0, None)].into(),
        write: [(pair(3).0, None), (pair(1).0, Some(Vec::new()))].into(),
        ..Draft::default()
    };
    let refused = StoreError::Refused(Some(pair(0).0));
    assert_eq!(store.apply(&draft), Err(refused));
    let changed = [pair(1).0, pair(3).0];
    assert_eq!(store.read(&changed, &[]).unwrap().pairs, [pair(1), pair(3)]);
    draft.compare.insert(pair(0).0, Some(Vec::new()));
    store.apply(&draft).unwrap();
    assert_eq!(
        store.read(&changed, &[]).unwrap().pairs,
        [(pair(1).0, Vec::new())]
    );
}

fn range(low: &[u8], high: &[u8], limit: usize) -> Range {
    Range {
        low: low.to_vec(),
        high: high.to_vec(),
        limit,
    }
}

#[test]
fn a_whole_change_beside_writers_over_a_file() {
    let folder = Folder::new("change");
    // on a busy machine a writer may hold the file for long
    let patience = Duration::from_secs(100);
    let store = || SqliteStore::with(folder.file(), "cagzhomul", patience).unwrap();
    change_beside_writers(store, 25);
}

/// The Python module's program, with these words.
fn python(program: &str, words: &[&str]) -> Child {
    let library = env::var("CAGZHOMUL_LIBRARY_DIR").unwrap();
    Command::new("python3")
        .env(
            "PYTHONPATH",
            concat!(env!("CARGO_MANIFEST_DIR"), "/../python"),
        )
        .env("PYTHONDONTWRITEBYTECODE", "1")
        .env("CAGZHOMUL_LIBRARY", format!("{library}/libcagzhomul.so"))
        .args(["-c", program])
        .args(words)
        .stdin(Stdio::piped())
        .stdout(Stdio::piped())
        .spawn()
        .expect("python3 is there")
}

const SHARES: &str = r#"
import sys
from cagzhomul import Query
from cagzhomul_layer import layer
from cagzhomul_layer.sqlite import SqliteStore

tables = {"people": {"id": "int key", "town": "text", "age": "int"}, "tags": {"name": "text key", "n": "int"}}
db = layer.open(SqliteStore(sys.argv[1]), tables)
db.update("people", 2, age=40)
acts = db.change("add index by_town on people (town)", pieces=2)
for _ in range(3):
    next(acts)
print(len(db.query(Query("people", between={"age": (0, 9)}))))
"#;

#[test]
fn a_file_is_shared_with_python() {
    let folder = Folder::new("python");
    let db = opened(9, SqliteStore::open(folder.file()).unwrap());
    let path = folder.file();
    let ended = python(SHARES, &[path.to_str().unwrap()])
        .wait_with_output()
        .unwrap();
    assert!(ended.status.success());
    assert_eq!(String::from_utf8(ended.stdout).unwrap(), "8\n");
    assert_eq!(number(row(&db, 2).as_ref(), "age"), 40);
    // the change that Python began and left is completed here
    let acts: Vec<Act> = db.resume().collect::<Result<_, _>>().unwrap();
    assert!(matches!(acts.last(), Some(Act::Publish { .. })), "{acts:?}");
    assert!(!db
        .query(&Query::of("people").equal("town", "Ulm"))
        .unwrap()
        .is_empty());
    sound(&db);
}

const LOCKS: &str = r#"
import sqlite3, sys
other = sqlite3.connect(sys.argv[1], isolation_level=None)
other.execute("BEGIN IMMEDIATE")
print("locked", flush=True)
sys.stdin.readline()
other.execute("ROLLBACK")
print("free", flush=True)
"#;

#[test]
fn files_that_cannot_be_reached() {
    let folder = Folder::new("locked");
    let patience = Duration::from_millis(100);
    let store = SqliteStore::with(folder.file(), "it's \"pairs\"", patience).unwrap();
    let path = folder.file();
    let mut other = python(LOCKS, &[path.to_str().unwrap()]);
    let mut said = BufReader::new(other.stdout.take().unwrap()).lines();
    assert_eq!(said.next().unwrap().unwrap(), "locked");
    let write = [(b"a".to_vec(), Some(b"1".to_vec()))].into();
    let draft = Draft {
        write,
        ..Draft::default()
    };
    let refused = store.apply(&draft);
    assert!(
        matches!(refused, Err(StoreError::Unreachable(_))),
        "{refused:?}"
    );
    assert_eq!(store.read(&[b"a".to_vec()], &[]).unwrap().pairs, []);
    other.stdin.take().unwrap().write_all(b"\n").unwrap();
    assert_eq!(said.next().unwrap().unwrap(), "free");
    assert!(other.wait().unwrap().success());
    store.apply(&draft).unwrap();
    assert_eq!(store.read(&[b"a".to_vec()], &[]).unwrap().pairs.len(), 1);
    let missing = SqliteStore::open(folder.0.join("none/it.db"));
    assert!(
        matches!(missing, Err(StoreError::Unreachable(_))),
        "{missing:?}"
    );
    let nameless = SqliteStore::with(folder.file(), "a\0b", patience);
    assert!(
        matches!(nameless, Err(StoreError::Unreachable(_))),
        "{nameless:?}"
    );
}

/// A program of `examples/layer_writers.rs`, and the lines that it says.
struct Writer {
    name: String,
    child: Child,
    lines: Receiver<String>,
}

impl Writer {
    fn start(folder: &Folder, name: &str, moves: usize) -> Writer {
        let tests = env::current_exe().unwrap();
        let program = tests
            .ancestors()
            .nth(2)
            .unwrap()
            .join("examples/layer_writers");
        let mut child = Command::new(&program)
            .args([folder.file().to_str().unwrap(), name, &moves.to_string()])
            .stdout(Stdio::piped())
            .spawn()
            .expect("cargo build --features sqlite --example layer_writers makes the program");
        let said = BufReader::new(child.stdout.take().unwrap());
        let (sender, lines) = mpsc::channel();
        thread::spawn(move || {
            said.lines()
                .map_while(Result::ok)
                .try_for_each(|it| sender.send(it))
        });
        let name = name.to_string();
        Writer { name, child, lines }
    }

    /// The numbers of the moves that it said are done, up to this one.
    fn wait_for(&self, number: usize) -> Vec<i64> {
        let lines = self.lines.iter().take(number);
        lines
            .map(|it| it.strip_prefix("done ").unwrap().parse().unwrap())
            .collect()
    }
}

/// The moves that are in the file of a writer of this name.
fn moves_of<S: Store>(db: &Layer<S>, name: &str) -> BTreeSet<i64> {
    let rows = db.query(&Query::of("moves")).unwrap();
    let rows = rows.iter().filter(|row| row.key()[0] == name.into());
    let number = |row: &cagzhomul::Row| match row.key()[1] {
        cagzhomul::Value::Int(number) => number,
        _ => panic!("{row:?}"),
    };
    rows.map(number).collect()
}

/// Kills a writer while an operator, which is left in the middle of its change, adds or drops an index.
fn kill<S: Store>(db: &Layer<S>, mut writer: Writer, turn: usize) {
    let mut done = writer.wait_for(2 + turn);
    let change = match turn % 2 {
        0 => SchemaChange::add_index("accounts", "by_balance", ["balance"]),
        _ => SchemaChange::drop_index("accounts", "by_balance"),
    };
    let acts = db.change(&[change]).unwrap().pieces(2).limit(3);
    let taken: Vec<Act> = acts.take(3).collect::<Result<_, _>>().unwrap();
    assert!(!taken.is_empty());
    writer.child.kill().unwrap();
    writer.child.wait().unwrap();
    done.extend(writer.wait_for(usize::MAX));
    let (there, due) = (moves_of(db, &writer.name), done.iter().copied().collect());
    assert!(there.is_superset(&due), "{done:?} {there:?}");
    assert!(there.len() <= done.len() + 1, "{done:?} {there:?}");
}

/// Three programs are killed, and three end by themselves, while the schema changes: each move that was
/// acknowledged is there once, and at most one more of each program that was killed.
#[test]
fn programs_that_are_killed() {
    const MOVES: usize = 20;
    let folder = Folder::new("killed");
    let accounts = Table::new("accounts").key("id", Int).column("balance", Int);
    let moves = Table::new("moves").key("name", Text).key("number", Int);
    let store = || SqliteStore::open(folder.file()).unwrap();
    let db = Layer::open(store(), [accounts, moves]).unwrap();
    let start = |name: &&str, count| Writer::start(&folder, name, count);
    let killed = ["a", "b", "c"]
        .each_ref()
        .map(|name| start(name, 1_000_000));
    let others = ["d", "e", "f"].each_ref().map(|name| start(name, MOVES));
    for (turn, writer) in killed.into_iter().enumerate() {
        kill(&db, writer, turn);
        let other = Layer::new(store()).unwrap();
        other.resume().try_for_each(|act| act.map(drop)).unwrap();
    }
    for mut writer in others {
        let done = writer.wait_for(MOVES);
        assert_eq!(done, (0..MOVES as i64).collect::<Vec<_>>());
        assert_eq!(writer.lines.recv().unwrap(), "sum 800");
        assert!(writer.child.wait().unwrap().success());
        assert_eq!(moves_of(&db, &writer.name), done.into_iter().collect());
    }
    let rows = db.query(&Query::of("accounts")).unwrap();
    let balances = rows.iter().map(|row| number(Some(row), "balance"));
    assert_eq!((rows.len(), balances.sum::<i64>()), (8, 800));
    sound(&db);
}

/// The program of the page is the example, without the remark at its top.
#[test]
fn the_page_shows_the_example() {
    let page = include_str!("../../../docs/LAYER.md");
    let example = include_str!("../examples/layer_writers.rs");
    let (_, shown) = page.split_once("```rust\n").unwrap();
    let (shown, _) = shown.split_once("```").unwrap();
    let (remark, program) = example.split_once("\n\n").unwrap();
    assert!(
        remark.lines().all(|line| line.starts_with("//!")),
        "{remark}"
    );
    assert_eq!(shown, program);
}
