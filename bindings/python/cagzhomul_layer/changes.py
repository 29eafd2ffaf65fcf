"""Schema changes over a store: what is under way, from the control records alone, and the acts that complete it.

What is to be done next, and the drafts of that, are the library's."""

from __future__ import annotations

import random
import time
from typing import Dict, Iterable, Iterator, List, NamedTuple, Optional, Sequence, Tuple

import cagzhomul
from cagzhomul import PlannedStep, SchemaElement
from cagzhomul._arguments import _small
from cagzhomul._changes import _over_limit, _Parts, _planned
from cagzhomul._codes import _list, _number
from cagzhomul._errors import _ERRORS, _NUMBERED
from cagzhomul._library import _BAD_CODE, _OVER_LIMIT
from cagzhomul._names import _Names
from cagzhomul._schema import _STATES

from . import calls
from .calls import CURSORS, MARKS, REORGS, VERSIONS, Refusal, asked, cursor_key, number_of, reorg_key, version_key
from .store import BadAnswer, Draft, Page, Range, Refused, Store, TooLarge, Unknown

# how many reorganisations, and cursors, a store may have; an element of 48 for each table has one of them, with up to 64 cursors
_MANY = 100_000
# the state after each on an element's way: of an index or a column with a default, and of another column
_ADDED = {"delete_only": "write_only", "write_only": "public"}, {"delete_only": "public"}
_DROPPED = {"write_only": "delete_only", "delete_only": "absent"}, {"delete_only": "absent"}
# of how many parts one is chosen at each turn of a search for the last key, and how many bytes of keys are told apart
_PARTS, _WIDTH = 16, 12
_PAUSE = 0.01


class Act(NamedTuple):
    """What an operator did: `what` is "close", by which the version before `version`, the newest, was closed; "begin", of the fill or the
    clear of an element; "work", on one of its pieces, from 0; or "publish", of the version `version`."""

    what: str
    version: int
    element: int = 0
    piece: int = 0


def _page(page: Page, of: Range) -> Page:
    if page.end != of.high:
        raise BadAnswer("more control records than there may be")
    return page


def versions_of(store: Store) -> Dict[int, bytes]:
    """The open versions by number, with their records: one or two, or none if there is no database."""
    of = Range(VERSIONS, REORGS, 3)
    pairs = store.read([], [of]).ranges[0].pairs
    if len(pairs) > 2:
        raise BadAnswer("more than two open versions")
    return {number_of(key): record for key, record in pairs}


def next_state(element: SchemaElement) -> Optional[str]:
    """The state that comes next on an element's way; None if it is public, and stays."""
    if element.state == "public":
        return None
    is_filled = isinstance(element.what, cagzhomul.SchemaIndex) or element.what.default is not None
    return (_DROPPED if element.is_dropped else _ADDED)[0 if is_filled else 1].get(element.state)


def _is_filling(element: SchemaElement) -> bool:
    return not element.is_dropped and element.state == "write_only" and next_state(element) == "public"


def wants(element: SchemaElement) -> bool:
    """Whether the next move of an element needs a fill or a clear."""
    return _is_filling(element) or next_state(element) == "absent"


class Records:
    """The control records of a store, as they were at one moment, and as the drafts since then have changed them."""

    def __init__(self, pairs: Dict[bytes, bytes]) -> None:
        versions = [number_of(key) for key in pairs if key[:1] == VERSIONS]
        if not versions:
            raise cagzhomul.NotOpened()
        self.pairs, self.number, self.is_before_open = pairs, max(versions), len(versions) > 1
        self.version = pairs[version_key(self.number)]
        self.schema = calls.schema_of(self.version)
        self.bounds = {number_of(key): calls.bounds_of(record) for key, record in pairs.items() if key[:1] == REORGS}

    @staticmethod
    def read(store: Store) -> Records:
        """The records of a store. NotOpened if it has none; BadAnswer."""
        wanted = [Range(low, high, _MANY) for low, high in ((VERSIONS, REORGS), (REORGS, CURSORS), (CURSORS, MARKS))]
        found = store.read([], wanted).ranges
        return Records({key: value for page, of in zip(found, wanted) for key, value in _page(page, of).pairs})

    def after(self, draft: Draft) -> Records:
        """The records once a draft has been applied."""
        control: Dict[bytes, Optional[bytes]] = {**self.pairs}
        control.update((key, value) for key, value in draft.write.items() if key[:1] in (VERSIONS, REORGS, CURSORS))
        return Records({key: value for key, value in control.items() if value is not None})

    def cursor(self, element: int, piece: int) -> bytes:
        """The key up to which a piece has come."""
        record = self.pairs.get(cursor_key(element, piece))
        if record is None or record[:1] != b"\1":
            raise BadAnswer("a piece without a cursor")
        return record[1:]

    def check(self, draft: Draft) -> None:
        """BadAnswer if a draft compares control records with others than these, of which it was made: they do not fit each other, and no
        store would apply it."""
        for key, value in draft.compare.items():
            if key < MARKS and self.pairs.get(key) != value:
                raise BadAnswer("records that do not fit each other")

    def open_pieces(self, element: int) -> List[int]:
        """The pieces of a begun reorganisation that have not ended."""
        return [piece for piece, (_, high) in enumerate(self.bounds[element]) if self.cursor(element, piece) < high]

    def is_ended(self, element: int) -> bool:
        """Whether the reorganisation of an element has begun and ended."""
        return element in self.bounds and not self.open_pieces(element)

    def reorgs(self) -> List[Tuple[bytes, bytes]]:
        """The records of all begun reorganisations, by rising key."""
        return sorted((key, record) for key, record in self.pairs.items() if key[:1] == REORGS)

    def ready_moves(self) -> List[bytes]:
        """The codes of the moves of all elements that may move on."""
        moves = []
        for it in self.schema.elements:
            state = next_state(it)
            if state is not None and (self.is_ended(it.number) if wants(it) else True):
                moves.append(b"\1" + _number(it.number, 4) + bytes([_STATES.index(state)]))
        return moves

    def due(self, steps: Optional[Sequence[PlannedStep]], most: int) -> Tuple[str, int, int, bytes]:
        """What the library says is to be done: an act, its element and piece, and the step that it publishes; `nothing` if all is done.
        `steps` are those that are left of a plan; None if up to `most` elements at once are to go their ways."""
        moves = self.ready_moves()[:most] if steps is None else []
        codes = [b"\1" + _list(moves)] if moves else [it.code for it in (steps or [])[:1]]
        try:
            act, element, piece = calls.due(self.number - 1, self.version, sorted(self.pairs.items()), codes)
        except Refusal as refusal:
            raise BadAnswer(f"records that do not fit each other: {refusal}") from None
        if act == "work":
            # one of the open pieces, so that several programs are not all at the same
            pieces = [(element, piece) for element in self.bounds for piece in self.open_pieces(element)]
            if not pieces:
                raise BadAnswer("no piece is open")
            element, piece = random.choice(pieces)
        return act, element, piece, codes[0] if act == "publish" else b""


def _place(key: bytes, low: bytes) -> int:
    """A key's place among those that begin as the range does."""
    return int.from_bytes(key[len(low) : len(low) + _WIDTH].ljust(_WIDTH, b"\0"), "big")


def _key_at(place: int, low: bytes) -> bytes:
    return low + place.to_bytes(_WIDTH, "big")


class Operator:
    """Does schema changes over a store. `pieces` (1 to 64) and `limit` (at least 1) are as for `Layer.change`."""

    def __init__(self, store: Store, pieces: int, limit: int) -> None:
        self._store, self._pieces, self._limit = store, _small("pieces", pieces), _small("limit", limit)
        # how many pairs of a piece are read, and fewer than which are too few
        self._some, self._least = limit, 1
        # how many elements move at once
        self._most = 1 << 32
        self._records: Optional[Records] = None

    def _present(self) -> Records:
        """The records, read if they are not known."""
        if self._records is None:
            self._records = Records.read(self._store)
        return self._records

    def _is_applied(self, draft: Draft) -> bool:
        """Hands a draft in; if it is not applied, or nobody knows, the records are read anew."""
        records = self._present()
        records.check(draft)
        self._records = None
        try:
            self._store.apply(draft)
        except (Refused, Unknown, BadAnswer):
            time.sleep(random.random() * _PAUSE)
            return False
        self._records = records.after(draft)
        return True

    # ---- acts

    def _begin(self, element: int) -> Draft:
        """The draft that begins the fill or the clear of an element, divided where keys are."""
        records = self._present()

        def divided(keys: Iterable[bytes]) -> Draft:
            code = calls.points_code(dict.fromkeys(keys))
            return calls.draft_of(asked("begin", records.number - 1, records.version, element, code).code)

        whole = divided([])
        bounds = calls.bounds_of(whole.write[reorg_key(element)] or b"")
        return divided(self._divisions(*bounds[0])) if self._pieces > 1 else whole

    def _first_keys(self, places: Sequence[int], low: bytes, high: bytes) -> List[Optional[bytes]]:
        """The first key of a range from each of these places on."""
        ranges = [Range(_key_at(it, low), high, 1) for it in places]
        return [page.pairs[0][0] if page.pairs else None for page in self._store.read([], ranges).ranges]

    def _divisions(self, low: bytes, high: bytes) -> List[bytes]:
        """Keys at which the pieces of a range but the first may begin, in equal distances, which are equal numbers if keys are spread
        evenly."""
        first = self._first_keys([0], low, high)[0]
        if first is None:
            return []
        begin = last = _place(first, low)
        end = 1 << 8 * _WIDTH  # no key is from there on
        while end - last > 1:
            places = sorted({last + (end - last) * it // _PARTS for it in range(1, _PARTS)} - {last})
            found = self._first_keys(places, low, high)
            end = next((place for place, key in zip(places, found) if key is None), end)
            last = max([last, *(_place(key, low) for key in found if key is not None)])
        ends = {begin + (last - begin) * it // self._pieces for it in range(1, self._pieces)}
        # of a row the key of its first pair
        found = self._first_keys(sorted(ends), low, high) if ends else []
        keys = {key[:-4] + bytes(4) if low[:1] == b"R" else key for key in found if key is not None}
        return sorted(keys - {first, low})

    def _is_worked(self, element: int, piece: int) -> bool:
        """Works the next pairs of a piece: fewer if the store or others that write there want that, and more again later."""
        records = self._present()
        cursor, high = records.cursor(element, piece), records.bounds[element][piece][1]
        page = self._store.read([], [Range(cursor, high, self._some)]).ranges[0]
        reorg, key = records.pairs[reorg_key(element)], cursor_key(element, piece)
        try:
            code = asked("piece", reorg, piece, records.pairs[key], page.end, calls.pairs_code(page.pairs)).code
        except Refusal as refusal:
            if refusal.status != calls.BAD_COUNT:
                raise
            # not all of one row
            self._least = self._some + 1
            self._some *= 2
            return False
        try:
            is_applied = self._is_applied(calls.draft_of(code))
        except TooLarge:
            if self._some <= self._least:
                raise
            self._records = records
            self._limit = self._some = max(self._some // 2, self._least)
            return False
        self._some = min(2 * self._some, max(self._limit, self._least)) if is_applied else max(self._some // 2, self._least)
        return is_applied

    def _done(self, act: Tuple[str, int, int, bytes]) -> Optional[Act]:
        """Does an act; None if it was refused, or nobody knows whether it was done."""
        what, element, piece, step = act
        records = self._present()
        before = records.number - 1
        if what == "work":
            return Act(what, records.number, element, piece) if self._is_worked(element, piece) else None
        if what == "begin":
            draft = self._begin(element)
        elif what == "close":
            draft = calls.draft_of(asked("close", before, records.version).code)
        else:
            draft = calls.draft_of(asked("publish", before, records.version, step, calls.pairs_code(records.reorgs())).code)
        if not self._is_applied(draft):
            return None
        return Act(what, self._present().number, element)

    # ---- changes

    def resume(self) -> Iterator[Act]:
        """The acts that complete what is under way."""
        while (act := self._present().due(None, self._most))[0] != "nothing":
            try:
                done = self._done(act)
            except Refusal as refusal:
                raise _error(refusal) from None
            except TooLarge:
                # each element has the cursors of its pieces in the step
                moves = int.from_bytes(act[3][1:9], "big")
                if moves < 2:
                    raise
                self._most, done = moves // 2, None
            if done is not None:
                yield done

    def change(self, parts: Sequence[_Parts]) -> Iterator[Act]:
        """Begins changes, and gives the acts that complete them: those of a least plan, unless another program publishes a version
        meanwhile, or a step is too large for the store; then what is under way is completed, and those that had not begun are planned anew."""
        left = list(parts)
        while left:
            self._records = None
            yield from self._planned(left)
            yield from self.resume()

    def _plan(self, parts: Sequence[_Parts]) -> List[PlannedStep]:
        """The least plan of changes from the newest version."""
        records = self._present()
        names = _Names(records.number, records.schema)
        try:
            return _planned(asked("plan", records.version, b"\1" + _list([it.code(names) for it in parts])).code)
        except Refusal as refusal:
            if refusal.status == calls.DEPENDENT:
                raise cagzhomul.StillIndexed(refusal.status, "an index is on the column") from None
            # only a default over 1,024 bytes makes a bad code of what this module writes
            if refusal.status in (_BAD_CODE, _OVER_LIMIT):
                raise _over_limit(parts) from None
            raise _ERRORS.get(refusal.status, cagzhomul.CagzhomulError)(refusal.status) from None

    def _planned(self, left: List[_Parts]) -> Iterator[Act]:
        """The acts of a plan of these changes, as far as no other program publishes a version; those that it begins are taken from the
        list."""
        steps, is_first = self._plan(left), True
        while steps:
            records = self._present()
            act = records.due(steps, 0)
            try:
                done = self._done(act)
            except Refusal as refusal:
                raise _error(refusal) from None
            except TooLarge:
                if act[0] != "publish" or is_first:
                    raise
                return
            newest = self._present()
            if act[0] == "publish" and (done is not None or self._is_published(records, act[3])):
                self._take_begun(left, steps.pop(0), records)
                done, is_first = Act("publish", newest.number), False
            elif newest.number != records.number:
                return
            if done is not None:
                yield done

    def _is_published(self, records: Records, step: bytes) -> bool:
        """Whether a step was published whose answer was lost, or by another program. Raises Unknown if that cannot be told any more."""
        draft = calls.draft_of(asked("publish", records.number - 1, records.version, step, calls.pairs_code(records.reorgs())).code)
        key = version_key(records.number + 1)
        newest = self._present()
        if newest.number > records.number + 1 and key not in newest.pairs:
            raise Unknown("whether the schema change has begun")
        return newest.pairs.get(key) == draft.write[key]

    @staticmethod
    def _take_begun(left: List[_Parts], step: PlannedStep, records: Records) -> None:
        """Takes the changes away that a step has begun: an element enters, or goes on its way, or turns."""
        elements = {it.number: (it.table, it.name) for it in records.schema.elements}
        tables = {it.number: it.name for it in records.schema.tables}
        for move in step.moves:
            acts = {"enter": (0, 2), "go": (1, 3), "turn": (4,)}[move.act]
            named = (tables[move.table], move.name) if move.act == "enter" else elements[move.element]
            for it in [it for it in left if it.act in acts and (it.table, it.name) == named]:
                left.remove(it)


def _error(refusal: Refusal) -> cagzhomul.CagzhomulError:
    """The exception of a refused act."""
    if refusal.status in _NUMBERED:
        return _NUMBERED[refusal.status](refusal.status, refusal.number)
    return _ERRORS.get(refusal.status, cagzhomul.CagzhomulError)(refusal.status)
