//! Plans as bytes, as `crates/entry_code` describes them.

use crate::error::Error;
use crate::names::Names;
use crate::plan::{Entering, Move, PlannedStep, Reorganisation, State};
use crate::rows::Reader;
use crate::table::Type;

/// The first byte of a code.
const VERSION: u8 = 1;

/// The steps of a plan's code; `names` has those of all tables.
pub(crate) fn steps_of(code: &[u8], names: &Names) -> Result<Vec<PlannedStep>, Error> {
    let unknown = || Error::Reply("a plan in another code".to_string());
    plan(&mut Reader(code), names).ok_or_else(unknown)
}

fn plan(reader: &mut Reader<'_>, names: &Names) -> Option<Vec<PlannedStep>> {
    (reader.byte()? == VERSION).then_some(())?;
    let steps = reader.list(|it| step(it, names))?;
    reader.0.is_empty().then_some(steps)
}

fn step(reader: &mut Reader<'_>, names: &Names) -> Option<PlannedStep> {
    let before = reader.list(reorganisation)?;
    let from = reader.0;
    let moves = reader.list(|it| a_move(it, names))?;
    let mut code = vec![VERSION];
    code.extend_from_slice(&from[..from.len() - reader.0.len()]);
    Some(PlannedStep {
        before,
        moves,
        code,
    })
}

fn reorganisation(reader: &mut Reader<'_>) -> Option<Reorganisation> {
    match (reader.byte()?, reader.small_number()?) {
        (0, element) => Some(Reorganisation::Fill { element }),
        (1, element) => Some(Reorganisation::Clear { element }),
        _ => None,
    }
}

fn a_move(reader: &mut Reader<'_>, names: &Names) -> Option<Move> {
    match (reader.byte()?, reader.small_number()?) {
        (0, table) => Some(Move::Enter {
            table: names.table_of(table)?.to_string(),
            name: name(reader)?,
            what: entering(reader)?,
            state: state(reader)?,
        }),
        (1, element) => Some(Move::Go {
            element,
            state: state(reader)?,
        }),
        (2, element) => Some(Move::Turn { element }),
        _ => None,
    }
}

pub(crate) fn name(reader: &mut Reader<'_>) -> Option<String> {
    String::from_utf8(reader.data()?.to_vec()).ok()
}

pub(crate) fn entering(reader: &mut Reader<'_>) -> Option<Entering> {
    match reader.byte()? {
        0 => Some(Entering::Index {
            columns: reader.list(Reader::small_number)?,
        }),
        1 => Some(Entering::Column {
            kind: kind(reader)?,
            default: None,
        }),
        2 => Some(Entering::Column {
            kind: kind(reader)?,
            default: Some(reader.value()?),
        }),
        _ => None,
    }
}

pub(crate) fn kind(reader: &mut Reader<'_>) -> Option<Type> {
    match reader.byte()? {
        0 => Some(Type::Int),
        1 => Some(Type::Text),
        2 => Some(Type::Bool),
        _ => None,
    }
}

pub(crate) fn state(reader: &mut Reader<'_>) -> Option<State> {
    match reader.byte()? {
        0 => Some(State::Absent),
        1 => Some(State::DeleteOnly),
        2 => Some(State::WriteOnly),
        3 => Some(State::Public),
        _ => None,
    }
}

#[cfg(test)]
mod tests {
    use super::*;
    use crate::schema::Schema;

    /// Two steps by hand: an index, and columns without and with a default, enter; once element 3
    /// is filled and 4 is cleared, 3 goes public and 5 turns.
    const CODE: &[u8] = b"\x01\0\0\0\0\0\0\0\x02\
        \0\0\0\0\0\0\0\0\0\0\0\0\0\0\0\x03\
        \0\0\0\0\x01\0\0\0\0\0\0\0\x01i\0\0\0\0\0\0\0\0\x02\0\0\0\x01\0\0\0\x02\x01\
        \0\0\0\0\x01\0\0\0\0\0\0\0\x01c\x01\x01\x02\
        \0\0\0\0\x01\0\0\0\0\0\0\0\x01d\x02\0\x02\x80\0\0\0\0\0\0\x07\0\
        \0\0\0\0\0\0\0\x02\0\0\0\0\x03\x01\0\0\0\x04\0\0\0\0\0\0\0\x02\
        \x01\0\0\0\x03\x03\x02\0\0\0\x05";

    fn enter(name: &str, what: Entering, state: State) -> Move {
        let (table, name) = ("t".to_string(), name.to_string());
        Move::Enter {
            table,
            name,
            what,
            state,
        }
    }

    /// The steps of a code, where t is table 1.
    fn steps(code: &[u8]) -> Result<Vec<PlannedStep>, Error> {
        steps_of(code, &Names::new(1, Schema::of(&["t"], &[])))
    }

    #[test]
    fn a_plan_is_read_with_every_kind_of_move() {
        let found = steps(CODE).unwrap();
        let columns = vec![1, 2];
        let column = |kind, default| Entering::Column { kind, default };
        let moves = [
            enter("i", Entering::Index { columns }, State::DeleteOnly),
            enter("c", column(Type::Text, None), State::WriteOnly),
            enter("d", column(Type::Int, Some(7.into())), State::Absent),
        ];
        assert_eq!(
            (&found[0].before[..], &found[0].moves[..]),
            (&[][..], &moves[..])
        );
        let before = [
            Reorganisation::Fill { element: 3 },
            Reorganisation::Clear { element: 4 },
        ];
        let (element, state) = (3, State::Public);
        let moves = [Move::Go { element, state }, Move::Turn { element: 5 }];
        assert_eq!(
            (&found[1].before[..], &found[1].moves[..]),
            (&before[..], &moves[..])
        );
        assert_eq!(
            found[1].code,
            b"\x01\0\0\0\0\0\0\0\x02\x01\0\0\0\x03\x03\x02\0\0\0\x05"
        );
        assert_eq!(steps(b"\x01\0\0\0\0\0\0\0\0"), Ok(Vec::new()));
    }

    #[test]
    fn other_bytes_are_no_plan() {
        for end in 0..CODE.len() {
            assert!(steps(&CODE[..end]).is_err(), "{end}");
        }
        assert!(steps(&[CODE, b"\0"].concat()).is_err());
        assert!(steps(b"\x02\0\0\0\0\0\0\0\0").is_err());
        assert!(
            steps_of(CODE, &Names::new(1, Schema::of(&[], &[]))).is_err(),
            "there is no table 1"
        );
    }
}
