//! All scripts of the repository, line by line through a session: each has its replies.

use cagzhomul::{Error, Session};
use std::fs;
use std::path::{Path, PathBuf};

/// The scripts in a folder and those below it.
fn scripts_in(folder: &Path, found: &mut Vec<PathBuf>) {
    for entry in fs::read_dir(folder).expect("the folder is read") {
        let path = entry.expect("its entry is read").path();
        if path.is_dir() {
            scripts_in(&path, found);
        } else if path.extension().is_some_and(|it| it == "script") {
            found.push(path);
        }
    }
}

/// The reply to a line's bytes. A line that is not UTF-8 is no line of the language.
fn reply_to(session: &Session, line: &[u8]) -> String {
    let Ok(line) = std::str::from_utf8(line) else {
        return "bad line\n".to_owned();
    };
    match session.line(line) {
        Err(Error::BadLine) => "bad line\n".to_owned(),
        reply => reply.expect("a line has a reply"),
    }
}

/// The replies to a script: each line without its ending, and a last one without if it is not empty.
fn replies_to(script: &[u8]) -> String {
    let session = Session::open().expect("a session opens");
    let mut lines: Vec<&[u8]> = script.split(|byte| *byte == b'\n').collect();
    let last = lines.pop().unwrap_or_default();
    let mut replies = String::new();
    for line in lines {
        replies += &reply_to(&session, line.strip_suffix(b"\r").unwrap_or(line));
    }
    if !last.is_empty() {
        replies += &reply_to(&session, last);
    }
    replies
}

#[test]
fn all_scripts_have_their_replies() {
    let root = Path::new(env!("CARGO_MANIFEST_DIR")).join("../..");
    let mut scripts = Vec::new();
    for folder in ["scripts", "examples"] {
        scripts_in(&root.join(folder), &mut scripts);
    }
    assert!(scripts.len() > 100, "the scripts are found");
    for script in scripts {
        let due = fs::read_to_string(script.with_extension("replies")).expect("it has its replies");
        let replies = replies_to(&fs::read(&script).expect("the script is read"));
        assert_eq!(replies, due, "{}", script.display());
    }
}
