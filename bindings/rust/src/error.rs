//! Why a call was refused.

use crate::course::NotCompleted;
use crate::declarations::BadDeclaration;
use crate::faults::WrongValue;
use crate::ffi;
use crate::layer::StoreError;
use crate::value::RowKey;
use std::fmt;

/// What an [`Error::NotPublic`] says of a key column.
const KEY_COLUMN: &str = ", which is a key column: each row found has it, and is found by its whole key, as `key = (1)` in words, or `Query::key`";

/// Why a call was refused. A refused call changed nothing, except that [`Error::OutOfMemory`] over
/// a line may close the session, and that after [`StoreError::Unknown`] nobody knows.
#[derive(Debug, Clone, PartialEq, Eq)]
#[non_exhaustive]
pub enum Error {
    /// The line, the query or the change is not of the script language.
    BadLine,
    /// The session was closed, since memory ran out over a line.
    Closed,
    /// The library ran out of memory. If it could not answer a line for it, the session may be freed,
    /// and then every later call is refused as [`Error::Closed`].
    OutOfMemory,
    /// The session has no world yet: it is before its line `open`. A store of one's own has no
    /// database.
    NotOpened,
    /// The log has no such place.
    NoEntry,
    /// The bytes are the code of no entry.
    BadEntry,
    /// The bytes are those of no checkpoint from which a world may open.
    BadCheckpoint,
    /// No accepted call of this world would add the entry.
    NotNext,
    /// The pieces are not 1 to 64, or the limit is not 1 to 1,000.
    BadCount,
    /// The moment is further after that of the log's last entry than the store allows
    /// ([`OpenOptions::furthest_jump`](crate::OpenOptions::furthest_jump)).
    TooFar,
    /// The moment is above 2^62.
    MomentTooLarge,
    /// A publication is due, and there are 1,000,000 versions.
    VersionsSpent,
    /// The declaration breaks a limit, or uses a name twice: which, and how. `None` if memory ran out
    /// while it was looked for, or if a checkpoint, or a database that is there, has other tables.
    BadTable(Option<Box<BadDeclaration>>),
    /// The lease length is not from 1 to 2^32.
    BadLength,
    /// There is no table of this name.
    NoTable,
    /// A column that is named is not a public column of its table in the lease's version.
    NotPublic {
        /// Its name; `None` if the call names none that its table does not have.
        column: Option<String>,
        /// Whether it is a key column: it is in each row that is found, no update changes it, and a row
        /// is found by the whole key: `key = (1)` in words, or [`Query::key`](crate::Query::key).
        is_key: bool,
    },
    /// A value of another type than its column, another number of values in a key, null in a key, a
    /// text over 1,024 bytes, or a column that is named twice: which. `None` if memory ran out while it
    /// was looked for.
    WrongType(Option<Box<WrongValue>>),
    /// More than 64 operations.
    TooManyOps,
    /// No grant could have given the lease: it is one of another world.
    BadLease,
    /// The lease has ended.
    LeaseEnded {
        /// The moment at which it ended.
        until: u64,
        /// The moment that counted: the greater of that of the call and that of the log's last entry.
        now: u64,
    },
    /// The transaction was prepared under another schema than that of its lease's version.
    WrongSchema,
    /// What a transaction or a piece has read changed since: it may be made, or read, again
    /// ([`retry`](crate::retry)).
    Conflict {
        /// The row; if several changed, the first of them by table and key. `None` of a piece, and over
        /// a store of one's own.
        row: Option<RowKey>,
    },
    /// The transaction inserts a row that is there.
    Duplicate {
        /// The first operation that is refused, counted from 0.
        operation: usize,
    },
    /// The transaction updates or deletes a row that is not there.
    NoRow {
        /// The first operation that is refused, counted from 0.
        operation: usize,
    },
    /// A change or a step names a table, an index or a column that is not there, or abandons one
    /// that is not being added.
    Unknown,
    /// A change adds a name that is taken.
    NameTaken,
    /// A change drops a column that an index is on.
    StillIndexed,
    /// A change is of something that another change is under way for.
    InChange,
    /// A name, a list, a default or a count is over its limit.
    Limit,
    /// Another change waits for its first step, so that no other may begin:
    /// [`Db::advance`](crate::Db::advance) or [`Db::resume`](crate::Db::resume) begins it.
    StillWaiting {
        /// The change that waits.
        change: String,
    },
    /// The steps of a [`Change`](crate::Change) ended before they were complete: the time has passed, or
    /// they were cancelled. What is left is told, and [`Db::resume`](crate::Db::resume) goes on.
    NotCompleted(Box<NotCompleted>),
    /// The newest version has not been it for a lease length.
    TooEarly {
        /// The moment from which on it will have been.
        until: u64,
    },
    /// No move joins the two states of a step's element.
    NotAdjacent,
    /// A move of a step goes the other way than its element.
    WrongWay,
    /// Another element stands against a step.
    Dependent {
        /// Its number.
        element: u32,
    },
    /// A reorganisation that a step needs is not finished.
    Unfinished {
        /// The number of its element.
        element: u32,
    },
    /// The element wants no reorganisation, or none has begun, or it is over.
    NotWanted,
    /// The version before may still be used.
    StillUsed {
        /// The moment from which on it is not.
        until: u64,
    },
    /// The reorganisation has begun already.
    Begun,
    /// The reorganisation has no piece of this number.
    BadPiece,
    /// The piece has ended: nothing is left of it to be read.
    Spent,
    /// The piece is not one of the element's reorganisation.
    WrongElement,
    /// The piece has gone on since it was read: it is to be read again.
    Moved,
    /// The transaction of a [`Layer`](crate::layer::Layer) has ended.
    WrongStage,
    /// A query of a [`Layer`](crate::layer::Layer) would read more pairs than its limit in one range.
    TooManyPairs {
        /// The limit.
        limit: usize,
    },
    /// A store of one's own did not carry out a call, or may not have.
    Store(StoreError),
    /// The library is of another major version than this crate calls, or of a lower minor one.
    LibraryVersion {
        /// The library's version: a thousand times its major one, and its minor one.
        version: u32,
    },
    /// A status that no call of this crate should meet, by its number.
    Status(i32),
    /// A reply that this crate does not know.
    Reply(String),
}

impl Error {
    /// Why a call with this status was refused.
    pub(crate) fn of(status: i32) -> Error {
        match status {
            ffi::BAD_LINE => Error::BadLine,
            ffi::CLOSED => Error::Closed,
            ffi::OUT_OF_MEMORY => Error::OutOfMemory,
            ffi::NO_ENTRY => Error::NoEntry,
            ffi::BAD_ENTRY => Error::BadEntry,
            ffi::NOT_NEXT => Error::NotNext,
            ffi::BAD_COUNT => Error::BadCount,
            ffi::MOMENT_TOO_LARGE => Error::MomentTooLarge,
            ffi::VERSIONS_SPENT => Error::VersionsSpent,
            ffi::BAD_TABLE => Error::BadTable(None),
            ffi::BAD_LENGTH => Error::BadLength,
            ffi::NO_TABLE => Error::NoTable,
            ffi::WRONG_TYPE => Error::WrongType(None),
            ffi::TOO_MANY_OPS => Error::TooManyOps,
            ffi::BAD_LEASE => Error::BadLease,
            ffi::WRONG_SCHEMA => Error::WrongSchema,
            ffi::CONFLICT => Error::Conflict { row: None },
            ffi::UNKNOWN => Error::Unknown,
            ffi::NOT_ADJACENT => Error::NotAdjacent,
            ffi::WRONG_WAY => Error::WrongWay,
            ffi::NAME_TAKEN => Error::NameTaken,
            ffi::OVER_LIMIT => Error::Limit,
            ffi::NOT_WANTED => Error::NotWanted,
            ffi::BEGUN => Error::Begun,
            ffi::BAD_PIECE => Error::BadPiece,
            ffi::SPENT => Error::Spent,
            ffi::WRONG_ELEMENT => Error::WrongElement,
            ffi::MOVED => Error::Moved,
            ffi::IN_CHANGE => Error::InChange,
            ffi::TOO_FAR => Error::TooFar,
            other => Error::Status(other),
        }
    }

    /// Why a schema change with this status was refused, by the number that it has beside it.
    pub(crate) fn of_change(status: i32, number: u64) -> Error {
        let element = number as u32; // the numbers of elements have 32 bits
        match status {
            ffi::TOO_EARLY => Error::TooEarly { until: number },
            ffi::DEPENDENT => Error::Dependent { element },
            ffi::UNFINISHED => Error::Unfinished { element },
            ffi::STILL_USED => Error::StillUsed { until: number },
            other => Error::of(other),
        }
    }

    fn text(&self) -> &'static str {
        match self {
            Error::BadLine => "bad line",
            Error::Closed => "the handle is closed",
            Error::OutOfMemory => "out of memory",
            Error::NotOpened => "no world is open yet",
            Error::NoEntry => "the log has no such place",
            Error::BadEntry => "the bytes are the code of no entry",
            Error::BadCheckpoint => "no world may open from these bytes",
            Error::NotNext => "no call of this world would add the entry",
            Error::BadCount => "the pieces are not 1 to 64, or the limit is not 1 to 1,000",
            Error::TooFar => {
                "the moment is further beyond that of the last entry than the world allows"
            }
            Error::MomentTooLarge => "the moment is above 2^62",
            Error::VersionsSpent => "no version is left",
            Error::BadTable(_) => "the declaration breaks a limit, or uses a name twice",
            Error::BadLength => "the lease length is not from 1 to 2^32",
            Error::NoTable => "no such table",
            Error::NotPublic { .. } => "a named column is not a public column of its table",
            Error::WrongType(_) => "a value of another type, or a column named twice",
            Error::TooManyOps => "more than 64 operations",
            Error::BadLease => "no grant could have given the lease",
            Error::LeaseEnded { .. } => "the lease has ended",
            Error::WrongSchema => "prepared under another schema than that of the lease's version",
            Error::Conflict { .. } => "a pair changed since it was read",
            Error::Duplicate { .. } => "a row of this key is there",
            Error::NoRow { .. } => "no row of this key is there",
            Error::Unknown => "no such table, element or column",
            Error::NameTaken => "the name is taken",
            Error::StillIndexed => "an index is on the column",
            Error::InChange => "an element that a change names is in change",
            Error::Limit => "a name, a list, a default or a count is over its limit",
            Error::StillWaiting { .. } => "another change still waits for its first step",
            Error::NotCompleted(_) => "the change is not complete",
            Error::TooEarly { .. } => {
                "the newest version has not been the newest for a full lease length"
            }
            Error::NotAdjacent => "no move joins the two states",
            Error::WrongWay => "a move of the other way",
            Error::Dependent { .. } => "another element stands against it",
            Error::Unfinished { .. } => "a reorganisation that the step needs is not finished",
            Error::NotWanted => "the element wants no reorganisation, or none has begun",
            Error::StillUsed { .. } => "the version before may still be used",
            Error::Begun => "the reorganisation has begun",
            Error::BadPiece => "no such piece",
            Error::Spent => "the piece has ended",
            Error::WrongElement => "the piece is not one of the element's reorganisation",
            Error::Moved => "the piece has moved since it was read",
            Error::WrongStage => "the work is not at the stage that the call takes",
            Error::TooManyPairs { .. } => "a range has more pairs than may be read",
            Error::Store(_) => "a call of the store",
            Error::LibraryVersion { .. } => "the library is of another version",
            Error::Status(_) => "a status that is not expected",
            Error::Reply(_) => "a reply that is not expected",
        }
    }
}

impl fmt::Display for Error {
    fn fmt(&self, f: &mut fmt::Formatter<'_>) -> fmt::Result {
        match self {
            Error::WrongType(Some(wrong)) => return wrong.fmt(f),
            Error::BadTable(Some(bad)) => return bad.fmt(f),
            Error::NotCompleted(left) => return left.fmt(f),
            _ => f.write_str(self.text())?,
        }
        match self {
            Error::NotPublic {
                column: Some(column),
                is_key,
            } => {
                let which = if *is_key { KEY_COLUMN } else { "" };
                write!(f, ": {column}{which}")
            }
            Error::LeaseEnded { until, now } => write!(f, ": at {until}, and now is {now}"),
            Error::Conflict { row: Some(row) } => write!(f, ": {row}"),
            Error::Duplicate { operation } | Error::NoRow { operation } => {
                write!(f, ": operation {operation}")
            }
            Error::TooEarly { until } | Error::StillUsed { until } => write!(f, ": until {until}"),
            Error::Dependent { element } | Error::Unfinished { element } => {
                write!(f, ": element {element}")
            }
            Error::StillWaiting { change } => write!(f, ": {change}"),
            Error::LibraryVersion { version } => write!(f, ": {version}"),
            Error::TooManyPairs { limit } => write!(f, ": {limit}"),
            Error::Store(error) => write!(f, ": {error}"),
            Error::Status(status) => write!(f, ": {status}, {}", ffi::text_of(*status)),
            Error::Reply(reply) => write!(f, ": {}", reply.trim_end()),
            _ => Ok(()),
        }
    }
}

impl std::error::Error for Error {}

impl From<StoreError> for Error {
    fn from(error: StoreError) -> Error {
        Error::Store(error)
    }
}

#[cfg(test)]
mod tests {
    use super::*;

    #[test]
    fn errors_of_statuses_have_the_texts_of_the_library() {
        for status in 0..60 {
            let error = Error::of(status);
            if !matches!(error, Error::Status(_)) {
                assert_eq!(error.to_string(), ffi::text_of(status), "{status}");
            }
        }
        assert_eq!(Error::of(ffi::TOO_FAR), Error::TooFar);
        for gone in [6, 15, 16] {
            assert_eq!(Error::of(gone), Error::Status(gone));
        }
        let (until, now) = (15, 20);
        let ended = Error::LeaseEnded { until, now };
        assert_eq!(ended.text(), ffi::text_of(ffi::LEASE_ENDED));
        for status in [
            ffi::TOO_EARLY,
            ffi::DEPENDENT,
            ffi::UNFINISHED,
            ffi::STILL_USED,
        ] {
            let error = Error::of_change(status, 7);
            assert_eq!(error.text(), ffi::text_of(status), "{status}");
            assert!(error.to_string().ends_with(" 7"), "{error}");
        }
    }

    #[test]
    fn texts_say_what_is_wrong() {
        let not_public = |column: &str, is_key| Error::NotPublic {
            column: Some(column.to_string()),
            is_key,
        };
        assert_eq!(
            not_public("town", false).to_string(),
            "a named column is not a public column of its table: town"
        );
        assert_eq!(
            not_public("id", true).to_string(),
            "a named column is not a public column of its table: id, which is a key column: \
             each row found has it, and is found by its whole key, as `key = (1)` in words, or `Query::key`"
        );
        let (until, now) = (15, 20);
        assert_eq!(
            Error::LeaseEnded { until, now }.to_string(),
            "the lease has ended: at 15, and now is 20"
        );
        let row = Some(RowKey::new("people", (1, "L'Aquila")));
        assert_eq!(
            Error::Conflict { row }.to_string(),
            "a pair changed since it was read: people (1, 'L''Aquila')"
        );
        assert_eq!(
            Error::NoRow { operation: 2 }.to_string(),
            "no row of this key is there: operation 2"
        );
        let change = "drop index i on t".to_string();
        assert_eq!(
            Error::StillWaiting { change }.to_string(),
            "another change still waits for its first step: drop index i on t"
        );
        assert_eq!(
            Error::Reply("refused What\n".to_string()).to_string(),
            "a reply that is not expected: refused What"
        );
    }
}
