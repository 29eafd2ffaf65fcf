//! What calls are asked for, as values or in words.

use crate::error::Error;
use crate::plan::SchemaChange;
use crate::query::Query;
use crate::session::Session;
use crate::words::BadWords;
use std::borrow::Cow;
use std::fmt;
use std::str::FromStr;

/// The [`Query`] or the [`SchemaChange`] that a call is asked for, as a value or in the words of the
/// script language. Each is made by `into`, so a call takes either:
///
/// ```
/// # use cagzhomul::{Db, Query, SchemaChange, Table, Type};
/// # let db = Db::open([Table::new("t").key("id", Type::Int).column("a", Type::Int)])?;
/// let in_words = db.query(0, "select a from t")?;
/// assert_eq!(db.query(0, Query::of("t").columns(["a"]))?, in_words);
/// let mut steps = db.change(SchemaChange::add_index("t", "i", ["a"]), || 10)?;
/// # assert!(steps.next().is_some());
/// # Ok::<(), cagzhomul::Error>(())
/// ```
#[derive(Debug, Clone, PartialEq, Eq)]
pub enum Wanted<'a, T: Clone> {
    /// In words, which are read by the call.
    Words(Cow<'a, str>),
    /// As a value.
    Value(Cow<'a, T>),
}

impl<T: Clone + FromStr<Err = BadWords>> Wanted<'_, T> {
    fn read(&self) -> Result<Cow<'_, T>, BadWords> {
        match self {
            Wanted::Words(words) => words.parse().map(Cow::Owned),
            Wanted::Value(value) => Ok(Cow::Borrowed(value)),
        }
    }
}

impl<T: Clone + fmt::Display> fmt::Display for Wanted<'_, T> {
    fn fmt(&self, f: &mut fmt::Formatter<'_>) -> fmt::Result {
        match self {
            Wanted::Words(words) => f.write_str(words),
            Wanted::Value(value) => value.fmt(f),
        }
    }
}

impl Session {
    /// What a call is asked for; if the session has no world, bad words are refused for that.
    pub(crate) fn read<'w, T: Clone + FromStr<Err = BadWords>>(
        &self,
        wanted: &'w Wanted<'_, T>,
    ) -> Result<Cow<'w, T>, Error> {
        wanted
            .read()
            .map_err(|bad| self.world().err().unwrap_or(bad.into()))
    }
}

impl<'a, T: Clone> From<&'a str> for Wanted<'a, T> {
    fn from(words: &'a str) -> Self {
        Wanted::Words(words.into())
    }
}

impl<'a, T: Clone> From<&'a String> for Wanted<'a, T> {
    fn from(words: &'a String) -> Self {
        Wanted::Words(words.into())
    }
}

impl<T: Clone> From<String> for Wanted<'_, T> {
    fn from(words: String) -> Self {
        Wanted::Words(words.into())
    }
}

macro_rules! wanted_from {
    ($($value:ty),*) => {
        $(impl From<$value> for Wanted<'_, $value> {
            fn from(value: $value) -> Self {
                Wanted::Value(Cow::Owned(value))
            }
        }

        impl<'a> From<&'a $value> for Wanted<'a, $value> {
            fn from(value: &'a $value) -> Self {
                Wanted::Value(Cow::Borrowed(value))
            }
        })*
    };
}

wanted_from!(Query, SchemaChange);

#[cfg(test)]
mod tests {
    use super::*;
    use crate::db::Db;
    use crate::ffi::{WorldHandle, ANY_JUMP};
    use crate::table::Table;

    #[test]
    fn words_and_values_are_read_and_shown() {
        let session = Session::open().unwrap();
        let change = SchemaChange::drop_index("t", "i");
        for wanted in [
            Wanted::from("drop index i on t"),
            Wanted::from("drop index i on t".to_string()),
            Wanted::from(&"drop index i on t".to_string()),
            Wanted::from(&change),
            Wanted::from(change.clone()),
        ] {
            assert_eq!(session.read(&wanted).as_deref(), Ok(&change));
            assert_eq!(wanted.to_string(), "drop index i on t");
        }
        let query = Query::of("t");
        let wanted = [Wanted::from("select * from t"), Wanted::from(&query)];
        assert!(wanted
            .iter()
            .all(|it| session.read(it).as_deref() == Ok(&query)));
    }

    #[test]
    fn a_session_without_a_world_is_refused_before_bad_words() {
        let db = Db::open([Table::new("t").key("id", crate::Type::Int)]).unwrap();
        let closed = Session::over(WorldHandle::closed(), ANY_JUMP);
        let what = Wanted::<Query>::from("what");
        assert_eq!(db.session().read(&what).err(), Some(Error::BadLine));
        assert_eq!(closed.read(&what).err(), Some(Error::Closed));
        assert_eq!(closed.line(""), Err(Error::Closed));
        let early = Session::open().unwrap();
        assert_eq!(early.read(&what).err(), Some(Error::NotOpened));
    }
}
