"""The tuples and chains of a store: those that its pages spell (docs/PAGES.md, docs/LINKS.md),
and those to which it opens (docs/RECOVERY.md)."""
from __future__ import annotations

from copy import deepcopy
from dataclasses import dataclass, field
from struct import Struct

from .catalog import TID, Catalog, Link, Relation, Tid, read_place
from .layout import PAGE_BYTES, Key, Space, reading, require, required, unpack
from .log import ChainChange, Change, Fate, Outcome, TupleChange
from .values import read_values

HEADER = Struct(">BB2xI8x")
BODY_ENTRY = Struct(">BxHH2x")
FORWARD_ENTRY = Struct(">BB2xI")
ENTRY_BYTES = 8
ENTRIES = 128
BODIES_AT = 1040

Pages = dict[Key, bytes]


@dataclass
class Tables:
    """The bytes of the values of each tuple, by the number of its relation; and the tuples of each chain, by
    the number of its link and its parent, in their order. A chain without tuples isn't there."""

    tuples: dict[tuple[int, Tid], bytes] = field(default_factory=dict)
    chains: dict[tuple[int, Tid | None], list[Tid]] = field(default_factory=dict)


# ---- bodies


def read_entry(pages: Pages, key: Key, slot: int) -> bytes:
    page = required(pages.get(key))
    require(slot < ENTRIES and page[: HEADER.size] == HEADER.pack(key.space, key.segment, key.number))
    return page[HEADER.size + ENTRY_BYTES * slot :][:ENTRY_BYTES]


def read_body(pages: Pages, key: Key, slot: int) -> bytes | None:
    """The body of an entry, also by a forward, if it isn't empty."""
    entry = read_entry(pages, key, slot)
    if not any(entry):
        return None
    if entry[0] == 1:
        _, place, length = unpack(BODY_ENTRY, entry)
        require(length > 0 and BODIES_AT <= place <= PAGE_BYTES - length)
        return pages[key][place : place + length]
    kind, to_slot, number = unpack(FORWARD_ENTRY, entry)
    to_page = Key(key.segment, Space.OVERFLOW, number)
    require(kind == 2 and key.space == Space.HOME and read_entry(pages, to_page, to_slot)[0] == 1)
    return read_body(pages, to_page, to_slot)


def block_bytes(link: Link, relation: Relation) -> int:
    """The size of a relation's block in a link; a late link has none."""
    if link.is_late:
        return 0
    if relation == link.child:
        return 13 if link.parent is None else 18
    return 12 if relation == link.parent else 0


@dataclass
class Body:
    """The body of a tuple: the blocks of its links, by their numbers, and the bytes of its values."""

    relation: Relation
    blocks: dict[int, bytes]
    values: bytes


def read_parts(catalog: Catalog, segment: int, data: bytes) -> Body:
    relation = required(catalog.relations.get(data[0]))
    require(relation.segment == segment)
    data = data[1:]
    blocks = {}
    for number, link in sorted(catalog.links.items()):
        size = block_bytes(link, relation)
        require(len(data) >= size)
        blocks[number], data = data[:size], data[size:]
    read_values(data, relation.fields)
    return Body(relation, blocks, data)


Bodies = dict[tuple[int, Tid], Body]


def read_bodies(pages: Pages, catalog: Catalog) -> Bodies:
    """The bodies of all tuples, by the numbers of their segments."""
    bodies = {}
    for key in sorted(key for key in pages if key.space == Space.HOME):
        for slot in range(ENTRIES):
            with reading(f"not a store page {key.segment} home {key.number}"):
                data = read_body(pages, key, slot)
            if data is not None:
                tid = Tid(key.number, slot)
                with reading(f"not a store tuple {key.segment} {tid}"):
                    bodies[key.segment, tid] = read_parts(catalog, key.segment, data)
    return bodies


# ---- chains


def ends_of(bodies: Bodies, link: Link) -> dict[Tid | None, tuple[Tid | None, Tid | None]]:
    """The first and the last of each chain of a link, by its parent."""
    if link.parent is None:
        return {None: (link.first, link.last)}
    return {
        tid: (read_place(body.blocks[link.number][:6]), read_place(body.blocks[link.number][6:]))
        for (_, tid), body in bodies.items()
        if body.relation == link.parent
    }


def walk(bodies: Bodies, link: Link, first: Tid | None) -> list[Tid]:
    """The tuples of a chain, by the last pointer of each one's block."""
    chain: list[Tid] = []
    tid = first
    while tid is not None:
        body = required(bodies.get((link.child.segment, tid)))
        require(body.relation == link.child and tid not in chain)
        chain.append(tid)
        tid = read_place(body.blocks[link.number][-TID.size :])
    return chain


def read_chains(bodies: Bodies, link: Link) -> dict[tuple[int, Tid | None], list[Tid]]:
    chains = {}
    with reading(f"not a store link {link.number}"):
        for parent, (first, last) in ends_of(bodies, link).items():
            chain = walk(bodies, link, first)
            require(last == (chain[-1] if chain else None))
            if chain:
                chains[link.number, parent] = chain
    return chains


def read_tables(pages: Pages, catalog: Catalog) -> Tables:
    """The tables that the pages spell: those of the last checkpoint."""
    bodies = read_bodies(pages, catalog)
    tables = Tables({(body.relation.number, tid): body.values for (_, tid), body in bodies.items()})
    for link in catalog.links.values():
        if not link.is_late:
            tables.chains |= read_chains(bodies, link)
    return tables


# ---- what an opening finds


def change_tuple(tables: Tables, change: TupleChange) -> None:
    key = change.relation, change.tid
    require(tables.tuples.get(key) == change.old)
    if change.new is None:
        del tables.tuples[key]
    else:
        tables.tuples[key] = change.new


def change_chain(tables: Tables, change: ChainChange) -> None:
    key = change.link, change.parent
    chain = tables.chains.pop(key, [])
    require(change.left is None or change.left in chain)
    place = 0 if change.left is None else chain.index(change.left) + 1
    if change.connects:
        chain.insert(place, change.child)
    else:
        require(chain[place : place + 1] == [change.child])
        del chain[place]
    if chain:
        tables.chains[key] = chain


def make(tables: Tables, at: int, change: Change) -> None:
    with reading(f"damaged log {at}"):
        if isinstance(change, TupleChange):
            change_tuple(tables, change)
        else:
            change_chain(tables, change)


def recover(saved: Tables, found: dict[int, Fate], checkpoint: int) -> Tables:
    """The tables to which a store opens: changes that were listed at the checkpoint and aren't committed are
    undone, the newest first, and those after it that are committed are made, in their order."""
    tables = deepcopy(saved)
    for at, fate in reversed(found.items()):
        is_listed = at < checkpoint and (fate.at is None or fate.at > checkpoint)
        if is_listed and fate.outcome is not Outcome.COMMITTED:
            make(tables, at, fate.change.undone())
    for at, fate in found.items():
        if at > checkpoint and fate.outcome is Outcome.COMMITTED:
            make(tables, at, fate.change)
    return tables
