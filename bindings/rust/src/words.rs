//! Queries and changes in the words of the script language, as `docs/SCRIPT.md` has them: each
//! function of [`Words`] reads one production of the grammar.

use crate::error::Error;
use crate::plan::SchemaChange;
use crate::query::{Condition, Query};
use crate::table::Type;
use crate::tokens::token;
use crate::value::{Key, Value};
use std::fmt;
use std::str::FromStr;

/// Words that are no query, or no change. As the refusal of a call this is [`Error::BadLine`].
///
/// ```
/// use cagzhomul::{BadWords, Query, SchemaChange};
///
/// assert_eq!("select a b from t".parse::<Query>(), Err(BadWords { place: 9 }));
/// assert_eq!("drop index i".parse::<SchemaChange>(), Err(BadWords { place: 12 }));
/// ```
#[derive(Debug, Clone, Copy, PartialEq, Eq, Hash)]
pub struct BadWords {
    /// The byte, from 0, at which what stands there cannot: the length of the words, if they end too
    /// soon.
    pub place: usize,
}

impl fmt::Display for BadWords {
    fn fmt(&self, f: &mut fmt::Formatter<'_>) -> fmt::Result {
        write!(f, "{}: byte {}", Error::BadLine, self.place)
    }
}

impl std::error::Error for BadWords {}

impl From<BadWords> for Error {
    fn from(_: BadWords) -> Error {
        Error::BadLine
    }
}

/// The query of `select COLUMNS from TABLE [where CONDITION {and CONDITION}]`.
///
/// ```
/// use cagzhomul::Query;
///
/// let query: Query = "select town from people where town = 'Ulm'".parse()?;
/// assert_eq!(query, Query::of("people").columns(["town"]).equal("town", "Ulm"));
/// # Ok::<(), cagzhomul::BadWords>(())
/// ```
impl FromStr for Query {
    type Err = BadWords;

    fn from_str(words: &str) -> Result<Query, BadWords> {
        Words::new(words).whole(Words::query)
    }
}

/// The change of `add index NAME on TABLE (COLUMNS)`, `add column NAME TYPE [default VALUE] on
/// TABLE`, `drop index NAME on TABLE`, `drop column NAME on TABLE` or `abandon TABLE.NAME`.
///
/// ```
/// use cagzhomul::SchemaChange;
///
/// let change = SchemaChange::add_index("people", "by_town", ["town"]);
/// assert_eq!("add index by_town on people (town)".parse(), Ok(change));
/// ```
impl FromStr for SchemaChange {
    type Err = BadWords;

    fn from_str(words: &str) -> Result<SchemaChange, BadWords> {
        Words::new(words).whole(Words::change)
    }
}

/// Whether there is a semicolon outside of quotes, as in a list of changes.
pub(crate) fn is_list(change: &str) -> bool {
    let mut is_quoted = false;
    change.chars().any(|c| {
        is_quoted ^= c == '\'';
        c == ';' && !is_quoted
    })
}

/// Words that are read from their start; no space is before what is left of them.
struct Words<'a> {
    left: &'a str,
    /// How many bytes all of them are.
    length: usize,
}

type Read<T> = Result<T, BadWords>;

impl<'a> Words<'a> {
    fn new(words: &'a str) -> Words<'a> {
        Words {
            left: words.trim_start_matches(' '),
            length: words.len(),
        }
    }

    /// What stands next cannot.
    fn bad<T>(&self) -> Read<T> {
        Err(BadWords {
            place: self.length - self.left.len(),
        })
    }

    /// The next token: "" if none begins there, or all is read.
    fn peek(&self) -> &'a str {
        token(self.left)
    }

    /// Goes on after this token, which is the next one.
    fn pass(&mut self, token: &str) {
        self.left = self.left[token.len()..].trim_start_matches(' ');
    }

    /// Whether this token is the next one, which is read then.
    fn take(&mut self, token: &str) -> bool {
        let is_next = self.peek() == token;
        if is_next {
            self.pass(token);
        }
        is_next
    }

    fn expect(&mut self, token: &str) -> Read<()> {
        match self.take(token) {
            true => Ok(()),
            false => self.bad(),
        }
    }

    /// A production after which nothing is left.
    fn whole<T>(mut self, read: impl FnOnce(&mut Self) -> Read<T>) -> Read<T> {
        let found = read(&mut self)?;
        match self.left.is_empty() {
            true => Ok(found),
            false => self.bad(),
        }
    }

    fn name(&mut self) -> Read<String> {
        let name = self.peek();
        if !name.starts_with(|first: char| first.is_ascii_alphabetic()) {
            return self.bad();
        }
        self.pass(name);
        Ok(name.to_string())
    }

    fn value(&mut self) -> Read<Value> {
        let token = self.peek();
        let value = match token {
            "null" => Value::Null,
            "true" => Value::Bool(true),
            "false" => Value::Bool(false),
            _ => match (token.strip_prefix('\''), token.parse()) {
                (Some(text), _) => Value::Text(text[..text.len() - 1].replace("''", "'")),
                (None, Ok(number)) => Value::Int(number),
                (None, Err(_)) => return self.bad(),
            },
        };
        self.pass(token);
        Ok(value)
    }

    fn kind(&mut self) -> Read<Type> {
        let word = self.peek();
        let Some(kind) = Type::ALL.into_iter().find(|it| it.word() == word) else {
            return self.bad();
        };
        self.pass(word);
        Ok(kind)
    }

    /// Items with a comma between each two.
    fn items<T>(&mut self, item: impl Fn(&mut Self) -> Read<T>) -> Read<Vec<T>> {
        let mut items = vec![item(self)?];
        while self.take(",") {
            items.push(item(self)?);
        }
        Ok(items)
    }

    /// Items in brackets.
    fn tuple<T>(&mut self, item: impl Fn(&mut Self) -> Read<T>) -> Read<Vec<T>> {
        self.expect("(")?;
        let items = self.items(item)?;
        self.expect(")")?;
        Ok(items)
    }

    fn query(&mut self) -> Read<Query> {
        self.expect("select")?;
        let columns = match self.take("*") {
            true => None,
            false => Some(self.items(Words::name)?),
        };
        self.expect("from")?;
        let mut query = Query::of(self.name()?);
        if let Some(columns) = columns {
            query = query.columns(columns);
        }
        if self.take("where") {
            query = query.meeting(self.condition()?);
            while self.take("and") {
                query = query.meeting(self.condition()?);
            }
        }
        Ok(query)
    }

    fn condition(&mut self) -> Read<Condition> {
        if self.take("key") {
            self.expect("=")?;
            return Ok(Condition::Key(Key(self.tuple(Words::value)?)));
        }
        let column = self.name()?;
        if self.take("between") {
            let low = self.value()?;
            self.expect("and")?;
            return Ok(Condition::Between(column, Some(low), Some(self.value()?)));
        }
        if self.take(">=") {
            return Ok(Condition::Between(column, Some(self.value()?), None));
        }
        if self.take("<=") {
            return Ok(Condition::Between(column, None, Some(self.value()?)));
        }
        self.expect("=")?;
        Ok(Condition::Equal(column, self.value()?))
    }

    fn change(&mut self) -> Read<SchemaChange> {
        if self.take("abandon") {
            let table = self.name()?;
            self.expect(".")?;
            return Ok(SchemaChange::abandon(table, self.name()?));
        }
        if self.take("add") {
            return self.addition();
        }
        self.expect("drop")?;
        let is_index = self.take("index");
        if !is_index {
            self.expect("column")?;
        }
        let (name, table) = (self.name()?, self.table()?);
        Ok(match is_index {
            true => SchemaChange::DropIndex { table, name },
            false => SchemaChange::DropColumn { table, name },
        })
    }

    /// What is added.
    fn addition(&mut self) -> Read<SchemaChange> {
        if self.take("index") {
            let (name, table) = (self.name()?, self.table()?);
            let columns = self.tuple(Words::name)?;
            return Ok(SchemaChange::add_index(table, name, columns));
        }
        self.expect("column")?;
        let (name, kind) = (self.name()?, self.kind()?);
        let default = match self.take("default") {
            true => Some(self.value()?),
            false => None,
        };
        let table = self.table()?;
        Ok(SchemaChange::AddColumn {
            table,
            name,
            kind,
            default,
        })
    }

    /// The table of an index or a column: `on TABLE`.
    fn table(&mut self) -> Read<String> {
        self.expect("on")?;
        self.name()
    }
}

#[cfg(test)]
mod tests {
    use super::*;

    #[test]
    fn a_semicolon_outside_of_quotes_makes_a_list() {
        assert!(is_list("drop index i on t; drop column a on t"));
        assert!(is_list("add column a text default 'it''s' on t;"));
        assert!(!is_list("add column a text default ';' on t"));
        assert!(!is_list("add column a text default ''';' on t"));
    }

    #[test]
    fn a_query_is_read_with_every_kind_of_condition_and_value() {
        let words = " select a ,b from t where key=(1,'it''s',true)and a = null and a between -9223372036854775808 \
                     and 007 and b >= '' and b <= '\u{e4};' and from = false ";
        let query = Query::of("t").columns(["a", "b"]).equal("a", Value::Null);
        let wanted = Query::of("t")
            .columns(["a", "b"])
            .key((1, "it's", true))
            .equal("a", Value::Null)
            .between("a", Some(i64::MIN), Some(7))
            .between("b", Some(""), None)
            .between("b", None, Some("\u{e4};"))
            .equal("from", false);
        assert_eq!(words.parse(), Ok(wanted));
        assert_eq!("select*from t".parse(), Ok(Query::of("t")));
        assert_eq!("select a,b from t where a=null".parse(), Ok(query));
    }

    #[test]
    fn changes_are_read_from_their_own_words() {
        for (words, change) in [
            (
                "add index j on t (b, a)",
                SchemaChange::add_index("t", "j", ["b", "a"]),
            ),
            (
                "add column c int on t",
                SchemaChange::add_column("t", "c", Type::Int),
            ),
            (
                "add column c text default 'it''s' on t",
                SchemaChange::add_column_with_default("t", "c", Type::Text, "it's"),
            ),
            (
                "add column c bool default null on t",
                SchemaChange::add_column_with_default("t", "c", Type::Bool, Value::Null),
            ),
            ("drop index i on t", SchemaChange::drop_index("t", "i")),
            ("drop column a on t", SchemaChange::drop_column("t", "a")),
            ("abandon t.i", SchemaChange::abandon("t", "i")),
        ] {
            assert_eq!(words.parse(), Ok(change.clone()), "{words}");
            assert_eq!(change.to_string(), words);
        }
    }

    #[test]
    fn bad_words_have_their_place() {
        for (words, place) in [
            ("", 0),
            ("  ", 2),
            ("Select a from t", 0),
            ("select", 6),
            ("select a, from t", 15),
            ("select a from t where", 21),
            ("select a from t where a => 1", 25),
            ("select a from t where a = 1x", 26),
            ("select a from t where a = 9223372036854775808", 26),
            ("select a from t where b = 'x", 26),
            ("select a from t where key = ()", 29),
            ("select a from t ;", 16),
            ("select \u{e4} from t", 7),
            ("select a\u{e4} from t", 8),
            ("select\ta from t", 6),
        ] {
            assert_eq!(words.parse::<Query>(), Err(BadWords { place }), "{words}");
        }
        for (words, place) in [
            ("add", 3),
            ("add index j on t ()", 18),
            ("add column c float on t", 13),
            ("add column c int default on t", 25),
            ("drop table t", 5),
            ("abandon t", 9),
            ("drop index i on t on", 18),
        ] {
            assert_eq!(
                words.parse::<SchemaChange>(),
                Err(BadWords { place }),
                "{words}"
            );
        }
        assert_eq!(BadWords { place: 3 }.to_string(), "bad line: byte 3");
    }
}
