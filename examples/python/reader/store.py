"""A store, read from its file."""
from __future__ import annotations

from dataclasses import dataclass
from functools import cached_property
from pathlib import Path

from .catalog import Catalog, Tid, read_catalog
from .layout import Device, Layout, read_layout
from .log import Abort, ChainChange, Checkpoint, End, Fate, Record, Restore, TupleChange, fates, read_log
from .tables import Tables, read_tables, recover
from .values import read_values, spelled


@dataclass(frozen=True)
class Store:
    """A store, with the words for what it has."""

    name: str
    layout: Layout
    catalog: Catalog
    records: dict[int, Record]

    @cached_property
    def fates(self) -> dict[int, Fate]:
        return fates(self.records)

    @cached_property
    def saved(self) -> Tables:
        """The tables of the last checkpoint."""
        return read_tables(self.layout.pages(), self.catalog)

    @cached_property
    def opened(self) -> Tables:
        """The tables to which the store opens."""
        return recover(self.saved, self.fates, self.layout.root.checkpoint)

    def segment_name(self, number: int) -> str:
        return self.catalog.segments.get(number, f"segment {number}")

    def tuple_name(self, relation: int, tid: Tid) -> str:
        return f"{self.catalog.relations[relation].name} {tid}"

    def chain_name(self, link: int, parent: Tid | None) -> str:
        name = self.catalog.links[link].name
        return name if parent is None else f"{name} below {parent}"

    def values(self, relation: int, data: bytes) -> str:
        """The values of a tuple, as a script spells them."""
        return " ".join(map(spelled, read_values(data, self.catalog.relations[relation].fields)))

    def record_words(self, record: Record) -> str:
        """What a record says, without values."""
        match record:
            case TupleChange(by, relation, tid, old, new):
                kind = "Insert" if old is None else "Delete" if new is None else "Update"
                return f"{kind} by {by}: {self.tuple_name(relation, tid)}"
            case ChainChange(by, link, parent, child, left, connects):
                kind = "Connect" if connects else "Disconnect"
                place = "first" if left is None else f"after {left}"
                return f"{kind} by {by}: {child} in {self.chain_name(link, parent)}, {place}"
            case Restore(by, position):
                return f"Restore by {by}: back to {position}"
            case End(by):
                return f"End by {by}"
            case Abort(by):
                return f"Abort by {by}"
            case Checkpoint(firsts):
                marks = ", ".join(f"{by} since {first}" for by, first in firsts.items())
                return f"Checkpoint: {marks or 'none'} open"

    def record_values(self, record: Record) -> str:
        """The values before and after a change of a tuple; of another record nothing."""
        if not isinstance(record, TupleChange):
            return ""
        sides = (side for side in (record.old, record.new) if side is not None)
        return " -> ".join(self.values(record.relation, side) for side in sides)


def read_store(path: str) -> Store:
    layout = read_layout(Device(Path(path).read_bytes()))
    catalog = read_catalog(layout.pages())
    return Store(Path(path).stem.replace("_", " "), layout, catalog, read_log(layout, catalog))
