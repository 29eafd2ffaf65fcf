//! The codes and the keys of a store, as `docs/FORMAT.md` has them.

use crate::code::Code;
use crate::layer::draft::{ComparedRange, Draft};
use crate::layer::store::{bad_answer, Pair, StoreError, Values};
use crate::rows::Reader;
use crate::schema::part;
use crate::value::Key;

/// Where the kinds of control records begin, then the pairs of rows and indexes, and the end of all.
pub(super) const VERSIONS: &[u8] = b"\0";
pub(super) const REORGS: &[u8] = b"\x01";
pub(super) const CURSORS: &[u8] = b"\x02";
pub(super) const MARKS: &[u8] = b"\x03";
pub(super) const PAIRS: &[u8] = b"\x04";
pub(super) const END: &[u8] = b"\xff";

/// The first byte of a code and of a record.
const VERSION: u8 = 1;
/// How many bytes a code has before what is in its list: its version, and how much that is.
const HEAD: usize = 9;
/// The room that a row's key begins with: that of a number or a short text.
const ROW_ROOM: usize = 32;

fn with_numbers(kind: &[u8], numbers: &[u64]) -> Vec<u8> {
    let numbers = numbers.iter().flat_map(|number| number.to_be_bytes());
    kind.iter().copied().chain(numbers).collect()
}

/// The key of a version.
pub(super) fn version_key(number: u64) -> Vec<u8> {
    with_numbers(VERSIONS, &[number])
}

/// The key of an element's reorganisation.
pub(super) fn reorg_key(element: u32) -> Vec<u8> {
    with_numbers(REORGS, &[element.into()])
}

/// The key of a piece's cursor.
pub(super) fn cursor_key(element: u32, piece: u32) -> Vec<u8> {
    with_numbers(CURSORS, &[element.into(), piece.into()])
}

/// The key of a mark.
pub(super) fn mark_key(mark: &[u8]) -> Vec<u8> {
    [MARKS, mark].concat()
}

/// The keys of a row's pairs: those of columns, or with 0 that the row is there.
pub(super) fn pair_keys<C>(table: u32, key: &Key, columns: C) -> impl Iterator<Item = Vec<u8>>
where
    C: Iterator<Item = u32>,
{
    let mut row = Code(Vec::with_capacity(ROW_ROOM));
    row.byte(b'R');
    row.small_number(table);
    key.0.iter().for_each(|value| row.value(value));
    columns.map(move |column| [row.as_bytes(), &column.to_be_bytes()].concat())
}

/// The number in the key of a version or of a reorganisation.
pub(super) fn number_of(key: &[u8]) -> Result<u64, StoreError> {
    let number = key.get(1..).and_then(|rest| rest.try_into().ok());
    number
        .map(u64::from_be_bytes)
        .ok_or(bad_answer("a key of no control record"))
}

/// How many bytes a point takes in a code.
fn room_of(key: &[u8], value: &Option<Vec<u8>>) -> usize {
    8 + key.len() + 1 + value.as_ref().map_or(0, |it| 8 + it.len())
}

/// The code of keys with their values or none.
pub(super) fn points_code(points: &Values) -> Code {
    let room = points.iter().map(|(key, value)| room_of(key, value));
    let mut code = Code::with_room(HEAD + room.sum::<usize>());
    code.count(points.len());
    for (key, value) in points {
        code.data(key);
        code.byte(u8::from(value.is_some()));
        value.iter().for_each(|value| code.data(value));
    }
    code
}

/// The code of pairs by rising key, as they are given.
pub(super) fn pairs_code<'a, I>(pairs: I) -> Code
where
    I: IntoIterator<Item = (&'a Vec<u8>, &'a Vec<u8>), IntoIter: ExactSizeIterator>,
{
    let pairs = pairs.into_iter();
    let mut code = Code::new();
    code.count(pairs.len());
    for (key, value) in pairs {
        code.data(key);
        code.data(value);
    }
    code
}

/// The code of a plan of at most one step, which is given by its own code.
pub(super) fn plan_code(step: Option<&[u8]>) -> Code {
    let mut code = Code::new();
    code.count(usize::from(step.is_some()));
    if let Some(step) = step {
        code.count(0); // what must have ended before it, the library knows
        step.iter().skip(1).for_each(|byte| code.byte(*byte));
    }
    code
}

/// A list of pairs as their code takes them.
pub(super) fn both(pairs: &[Pair]) -> impl ExactSizeIterator<Item = (&Vec<u8>, &Vec<u8>)> {
    pairs.iter().map(|(key, value)| (key, value))
}

fn pairs(reader: &mut Reader<'_>) -> Option<Vec<Pair>> {
    reader.list(|it| Some((it.data()?.to_vec(), it.data()?.to_vec())))
}

fn points(reader: &mut Reader<'_>) -> Option<Values> {
    let point = |it: &mut Reader<'_>| {
        let key = it.data()?.to_vec();
        let value = match it.byte()? {
            0 => None,
            1 => Some(it.data()?.to_vec()),
            _ => return None,
        };
        Some((key, value))
    };
    Some(reader.list(point)?.into_iter().collect())
}

fn draft(reader: &mut Reader<'_>) -> Option<Draft> {
    draft_after(points(reader)?, reader)
}

/// The draft that compares these points, of which the rest is read.
fn draft_after(compare: Values, reader: &mut Reader<'_>) -> Option<Draft> {
    let range = |it: &mut Reader<'_>| {
        Some(ComparedRange {
            low: it.data()?.to_vec(),
            high: it.data()?.to_vec(),
            pairs: pairs(it)?,
        })
    };
    Some(Draft {
        compare,
        ranges: reader.list(range)?,
        write: points(reader)?,
    })
}

/// After the element, as it was when the work began, and which work it is.
fn bounds(reader: &mut Reader<'_>) -> Option<Vec<Pair>> {
    part(reader)?;
    reader.byte()?;
    pairs(reader)
}

/// Reads a whole code.
fn whole<T>(code: &[u8], read: impl FnOnce(&mut Reader<'_>) -> Option<T>) -> Result<T, StoreError> {
    all_of(code, |reader| match reader.byte() {
        Some(VERSION) => read(reader),
        _ => None,
    })
}

/// Reads what is left of a code.
fn all_of<T>(
    rest: &[u8],
    read: impl FnOnce(&mut Reader<'_>) -> Option<T>,
) -> Result<T, StoreError> {
    let mut reader = Reader(rest);
    read(&mut reader)
        .filter(|_| reader.0.is_empty())
        .ok_or_else(|| bad_answer("bytes in another code"))
}

/// The keys of a code of points.
pub(super) fn keys_of(code: &[u8]) -> Result<Vec<Vec<u8>>, StoreError> {
    Ok(whole(code, points)?.into_keys().collect())
}

/// The pairs of a code, as keys and values, or as the bounds of ranges.
pub(super) fn pairs_of(code: &[u8]) -> Result<Vec<Pair>, StoreError> {
    whole(code, pairs)
}

/// The draft of a code.
pub(super) fn draft_of(code: &[u8]) -> Result<Draft, StoreError> {
    whole(code, draft)
}

/// What the draft of a transaction compares, as far as the caller knows: the record of its version,
/// that its mark is missing, and what it read.
pub(super) struct Compared<'a> {
    /// The key and the record of its version.
    pub(super) version: (Vec<u8>, &'a [u8]),
    /// The key of its mark.
    pub(super) mark: Vec<u8>,
    /// What it read, and the code of that.
    pub(super) read: Values,
    pub(super) view: Code,
}

impl Compared<'_> {
    /// What comes after its comparisons in this code, if it has these and no others, by rising key:
    /// control keys are below those of pairs.
    fn after<'c>(&self, code: &'c [u8]) -> Option<&'c [u8]> {
        let (mut reader, (version, record)) = (Reader(code), &self.version);
        let has_control = reader.byte()? == VERSION
            && reader.number()? == self.read.len() as u64 + 2
            && (reader.data()?, reader.byte()?, reader.data()?) == (version, 1, record)
            && (reader.data()?, reader.byte()?) == (&self.mark, 0);
        let rest = reader.0.strip_prefix(&self.view.as_bytes()[HEAD..]);
        rest.filter(|_| has_control)
    }

    /// The draft of this code: if it begins as it should, its comparisons are not read, but taken.
    pub(super) fn draft_of(self, code: &[u8]) -> Result<Draft, StoreError> {
        let Some(rest) = self.after(code) else {
            return draft_of(code);
        };
        let mut compare = self.read;
        compare.insert(self.mark, None);
        compare.insert(self.version.0, Some(self.version.1.to_vec()));
        all_of(rest, |it| draft_after(compare, it))
    }
}

/// The bounds of the pieces of a reorganisation, by its record.
pub(super) fn bounds_of(record: &[u8]) -> Result<Vec<Pair>, StoreError> {
    whole(record, bounds)
}

/// The key up to which a piece has come, by the record of its cursor.
pub(super) fn cursor_of(record: &[u8]) -> Result<&[u8], StoreError> {
    let key = record.strip_prefix(&[VERSION]);
    key.ok_or(bad_answer("a cursor in another code"))
}

#[cfg(test)]
mod tests {
    use super::*;

    fn data(bytes: &[u8]) -> Vec<u8> {
        [&(bytes.len() as u64).to_be_bytes()[..], bytes].concat()
    }

    fn list(items: &[Vec<u8>]) -> Vec<u8> {
        [&(items.len() as u64).to_be_bytes()[..], &items.concat()].concat()
    }

    /// The points a, without a value, and b with xy, and the pair c without bytes, by hand.
    fn codes() -> (Vec<u8>, Vec<u8>) {
        let a = [data(b"a"), vec![0]].concat();
        let b = [data(b"b"), vec![1], data(b"xy")].concat();
        let c = [data(b"c"), data(b"")].concat();
        (list(&[a, b]), list(&[c]))
    }

    #[test]
    fn codes_are_written_and_read() {
        let (points, pairs) = codes();
        let values = Values::from([(b"a".to_vec(), None), (b"b".to_vec(), Some(b"xy".to_vec()))]);
        let of_c = vec![(b"c".to_vec(), Vec::new())];
        let written = [points_code(&values), pairs_code(both(&of_c))];
        let due = [&points, &pairs].map(|it| [&[1], &it[..]].concat());
        assert_eq!(written.map(|it| it.as_bytes().to_vec()), due);
        let keys: Vec<Vec<u8>> = values.keys().cloned().collect();
        assert_eq!(
            (keys_of(&due[0]), pairs_of(&due[1])),
            (Ok(keys), Ok(of_c.clone()))
        );
        let range = [data(b"c"), data(b"d"), pairs].concat();
        let code = [vec![1], points.clone(), list(&[range]), points].concat();
        let ranges = vec![ComparedRange {
            low: b"c".to_vec(),
            high: b"d".to_vec(),
            pairs: of_c,
        }];
        let (compare, write) = (values.clone(), values);
        let draft = Draft {
            compare,
            ranges,
            write,
        };
        assert_eq!(draft_of(&code), Ok(draft));
    }

    /// The draft of version 1 with the record r and of the mark m, which read a and b, and writes b; by
    /// hand. What begins otherwise is read as it is, and what ends otherwise is none.
    #[test]
    fn a_draft_that_begins_as_it_should_is_that_of_its_code() {
        let (points, _) = codes();
        let read = Values::from([(b"a".to_vec(), None), (b"b".to_vec(), Some(b"xy".to_vec()))]);
        let version = [data(&version_key(1)), vec![1], data(b"r")].concat();
        let mark = [data(b"\x03m"), vec![0]].concat();
        let count = |number: u64| number.to_be_bytes().to_vec();
        let write = list(&[[data(b"b"), vec![0]].concat()]);
        let rest = [&points[8..], &count(0), &write].concat();
        let code = [vec![1], count(4), version.clone(), mark, rest.clone()].concat();
        let other = [vec![1], count(3), version, rest].concat();
        let compared = || Compared {
            version: (version_key(1), b"r"),
            mark: mark_key(b"m"),
            read: read.clone(),
            view: points_code(&read),
        };
        let draft = draft_of(&code).unwrap();
        assert_eq!((draft.compare.len(), draft.write.len()), (4, 1));
        assert_eq!(draft.compare[&mark_key(b"m")], None);
        assert_eq!(compared().draft_of(&code), Ok(draft));
        assert_eq!(draft_of(&other).unwrap().compare.len(), 3);
        assert_eq!(compared().draft_of(&other), draft_of(&other));
        for end in 0..code.len() {
            assert!(compared().draft_of(&code[..end]).is_err(), "{end}");
        }
        assert!(compared().draft_of(&[&code[..], b"\0"].concat()).is_err());
    }

    #[test]
    fn other_bytes_are_no_codes() {
        let (points, pairs) = codes();
        let range = [data(b"c"), data(b"d"), pairs.clone()].concat();
        let draft = [vec![1], points.clone(), list(&[range]), points.clone()].concat();
        let points = [vec![1], points].concat();
        let pairs = [vec![1], pairs].concat();
        let is_read = |code: &[u8], at: usize| match at {
            0 => draft_of(code).is_ok(),
            1 => keys_of(code).is_ok(),
            _ => pairs_of(code).is_ok(),
        };
        for (at, code) in [draft, points, pairs].iter().enumerate() {
            assert!(is_read(code, at));
            let cut = (0..code.len()).map(|end| code[..end].to_vec());
            let longer = [&code[..], b"\0"].concat();
            let other = [b"\x02", &code[1..]].concat();
            for bad in cut.chain([longer, other]) {
                assert!(!is_read(&bad, at), "{bad:?}");
            }
        }
    }

    #[test]
    fn keys_of_records() {
        assert_eq!(version_key(1), b"\0\0\0\0\0\0\0\0\x01");
        assert_eq!(reorg_key(2), b"\x01\0\0\0\0\0\0\0\x02");
        assert_eq!(
            cursor_key(2, 3),
            b"\x02\0\0\0\0\0\0\0\x02\0\0\0\0\0\0\0\x03"
        );
        assert_eq!(mark_key(b"m"), b"\x03m");
        // keys of docs/FORMAT.md, and of the words in it
        let texts = Key::from(("a\0", true));
        assert_eq!(
            pair_keys(1, &Key::from(1), [0, 1].into_iter()).collect::<Vec<_>>(),
            [0, 1].map(|it| [
                b"R\0\0\0\x01\x02\x80\0\0\0\0\0\0\x01\0\0\0",
                &[it as u8][..]
            ]
            .concat())
        );
        assert_eq!(
            pair_keys(1, &texts, [2].into_iter()).next().unwrap(),
            b"R\0\0\0\x01\x03a\0\xff\0\x01\x04\x01\0\0\0\x02"
        );
        assert_eq!(number_of(&version_key(7)), Ok(7));
        for key in [
            &b""[..],
            b"\0",
            b"\0\0\0\0\0\0\0\x01",
            b"\0\0\0\0\0\0\0\0\x01\0",
        ] {
            assert!(number_of(key).is_err(), "{key:?}");
        }
        assert_eq!(cursor_of(b"\x01key"), Ok(&b"key"[..]));
        assert!(cursor_of(b"\x02key").is_err());
    }
}
