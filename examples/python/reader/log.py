"""The log: its records, and which of its changes are committed (docs/LOG.md, docs/RECOVERY.md)."""
from __future__ import annotations

from collections import defaultdict
from dataclasses import dataclass, replace
from enum import Enum
from struct import Struct

from .catalog import TID, Catalog, Tid, read_place
from .layout import Layout, reading, require, required
from .values import read_values

VALUES_MOST = 2048
MARKS_MOST = 32
PAGE_SLOTS = 128

NUMBER = Struct(">I")
POSITION = Struct(">Q")
LENGTH = Struct(">H")


@dataclass(frozen=True)
class TupleChange:
    """An Insert, a Delete or an Update: the bytes of the values before it and after it."""

    by: int
    relation: int
    tid: Tid
    old: bytes | None
    new: bytes | None

    def undone(self) -> TupleChange:
        return replace(self, old=self.new, new=self.old)


@dataclass(frozen=True)
class ChainChange:
    """A Connect or a Disconnect of a child right after the tuple left, or as the first one."""

    by: int
    link: int
    parent: Tid | None
    child: Tid
    left: Tid | None
    connects: bool

    def undone(self) -> ChainChange:
        return replace(self, connects=not self.connects)


@dataclass(frozen=True)
class Restore:
    by: int
    position: int


@dataclass(frozen=True)
class End:
    by: int


@dataclass(frozen=True)
class Abort:
    by: int


@dataclass(frozen=True)
class Checkpoint:
    firsts: dict[int, int]
    """The position of the first change of each open transaction that has any."""


Change = TupleChange | ChainChange
Record = Change | Restore | End | Abort | Checkpoint


class Reader:
    """Reads the fields of records one after another."""

    def __init__(self, data: bytes) -> None:
        self.data = data
        self.at = 0

    def take(self, count: int) -> bytes:
        require(self.at + count <= len(self.data))
        self.at += count
        return self.data[self.at - count : self.at]

    def number(self, form: Struct) -> int:
        return form.unpack(self.take(form.size))[0]

    def byte(self) -> int:
        return self.take(1)[0]

    def place(self) -> Tid | None:
        place = read_place(self.take(TID.size))
        require(place is None or place.slot < PAGE_SLOTS)
        return place

    def tid(self) -> Tid:
        return required(self.place())

    def values(self) -> bytes:
        length = self.number(LENGTH)
        require(length <= VALUES_MOST)
        return self.take(length)

    def firsts(self) -> dict[int, int]:
        count = self.byte()
        require(count <= MARKS_MOST)
        return {self.number(NUMBER): self.number(POSITION) for _ in range(count)}

    def record(self) -> Record:
        kind = self.byte()
        require(1 <= kind <= 9)
        if kind == 9:
            return Checkpoint(self.firsts())
        by = self.number(NUMBER)
        if kind <= 3:
            relation, tid = self.byte(), self.tid()
            old = None if kind == 1 else self.values()
            new = None if kind == 2 else self.values()
            return TupleChange(by, relation, tid, old, new)
        if kind <= 5:
            return ChainChange(by, self.byte(), self.place(), self.tid(), self.place(), connects=kind == 4)
        if kind == 6:
            return Restore(by, self.number(POSITION))
        return End(by) if kind == 7 else Abort(by)


def require_listed(record: Record, catalog: Catalog) -> None:
    """Sees that a change is of a relation or a link that is there, and has values of its fields."""
    match record:
        case TupleChange():
            relation = required(catalog.relations.get(record.relation))
            for values in (record.old, record.new):
                if values is not None:
                    read_values(values, relation.fields)
        case ChainChange():
            require(record.link in catalog.links)


def read_log(layout: Layout, catalog: Catalog) -> dict[int, Record]:
    """The records of the log by their positions."""
    reader = Reader(layout.log())
    head, checkpoint = layout.root.head, layout.root.checkpoint
    records = {}
    while reader.at < len(reader.data):
        position = head + reader.at
        with reading(f"damaged log {position}"):
            records[position] = reader.record()
            require_listed(records[position], catalog)
    with reading(f"damaged log {checkpoint}"):
        require(isinstance(records.get(checkpoint), Checkpoint))
    return records


class Outcome(Enum):
    """What became of a change, with the words for it."""

    COMMITTED = "committed"
    TAKEN_BACK = "taken back"
    OPEN = "never ended"


@dataclass(frozen=True)
class Fate:
    """What became of a change, and the position of the record that decided on it."""

    change: Change
    outcome: Outcome = Outcome.OPEN
    at: int | None = None


def fates(records: dict[int, Record]) -> dict[int, Fate]:
    """The fate of each change, by its position."""
    found: dict[int, Fate] = {}
    listed: dict[int, list[int]] = defaultdict(list)

    def decide(by: int, outcome: Outcome, at: int, since: int = 0) -> None:
        for position in listed[by]:
            if position >= since:
                found[position] = replace(found[position], outcome=outcome, at=at)
        listed[by] = [position for position in listed[by] if position < since]

    for at, record in records.items():
        match record:
            case TupleChange() | ChainChange():
                found[at] = Fate(record)
                listed[record.by].append(at)
            case Restore():
                decide(record.by, Outcome.TAKEN_BACK, at, since=record.position)
            case Abort():
                decide(record.by, Outcome.TAKEN_BACK, at)
            case End():
                decide(record.by, Outcome.COMMITTED, at)
    return found
