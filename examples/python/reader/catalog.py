"""The catalog: which segments, relations, images and links a store has (docs/CATALOG.md)."""
from __future__ import annotations

import re
from collections.abc import Callable
from dataclasses import dataclass, field
from struct import Struct
from typing import NamedTuple

from .layout import PAGE_BYTES, SEGMENTS, Key, Space, reading, require, required, unpack

NAME = re.compile(rb"([a-z][a-z0-9_]{0,15})\0*")
NAME_BYTES = 16
FIELDS_MOST = 16
RELATION = Struct(">16sBBBxI8x480s")
FIELD = Struct(">16sBB")
IMAGE = Struct(">16sBBBBI16s24x")
LINK = Struct(">16sBBBB6s6s32x")
TID = Struct(">IH")


class Tid(NamedTuple):
    """The identifier of a tuple."""

    page: int
    slot: int

    def __str__(self) -> str:
        return f"{self.page}.{self.slot}"


def read_place(data: bytes) -> Tid | None:
    """An identifier, or none if its six bytes are 255."""
    return None if data == b"\xff" * TID.size else Tid(*TID.unpack(data))


@dataclass(frozen=True)
class Field:
    name: str
    text: int | None
    """The most bytes of a text, or none for an INT."""
    added: bool

    def __str__(self) -> str:
        kind = "int" if self.text is None else f"text{self.text}"
        return f"{self.name}:{kind}"


@dataclass(frozen=True)
class Relation:
    number: int
    name: str
    segment: int
    count: int
    fields: list[Field]


@dataclass(frozen=True)
class Image:
    number: int
    name: str
    relation: Relation
    is_unique: bool
    fields: list[Field]
    levels: int
    root: int


@dataclass(frozen=True)
class Link:
    """A link: parent is none if it is unary, and then first and last are the ends of its chain."""

    number: int
    name: str
    parent: Relation | None
    child: Relation
    is_late: bool
    first: Tid | None
    last: Tid | None


@dataclass
class Catalog:
    """Definitions of each kind by their numbers."""

    segments: dict[int, str] = field(default_factory=dict)
    relations: dict[int, Relation] = field(default_factory=dict)
    images: dict[int, Image] = field(default_factory=dict)
    links: dict[int, Link] = field(default_factory=dict)


def read_name(data: bytes) -> str:
    return required(NAME.fullmatch(data))[1].decode()


def read_flag(number: int) -> bool:
    require(number < 2)
    return number == 1


def read_segment(catalog: Catalog, number: int, data: bytes) -> None:
    catalog.segments[number] = read_name(data)


def read_field(data: bytes, added: bool) -> Field:
    name, kind, most = FIELD.unpack(data)
    require((kind, most > 0) in ((1, False), (2, True)))
    return Field(read_name(name), most if kind == 2 else None, added)


def read_relation(catalog: Catalog, number: int, data: bytes) -> None:
    name, segment, count, added, tuples, rest = unpack(RELATION, data)
    require(segment in catalog.segments and 1 <= count <= FIELDS_MOST and added <= count)
    require(not any(rest[count * FIELD.size :]))
    parts = (rest[k * FIELD.size : (k + 1) * FIELD.size] for k in range(count))
    fields = [read_field(part, added=k >= count - added) for k, part in enumerate(parts)]
    catalog.relations[number] = Relation(number, read_name(name), segment, tuples, fields)


def read_image(catalog: Catalog, number: int, data: bytes) -> None:
    name, relation_number, unique, count, levels, root, numbers = unpack(IMAGE, data)
    relation = required(catalog.relations.get(relation_number))
    require(1 <= count <= FIELDS_MOST and levels > 0 and not any(numbers[count:]))
    require(all(1 <= k <= len(relation.fields) for k in numbers[:count]))
    fields = [relation.fields[k - 1] for k in numbers[:count]]
    catalog.images[number] = Image(number, read_name(name), relation, read_flag(unique), fields, levels, root)


def read_link(catalog: Catalog, number: int, data: bytes) -> None:
    name, kind, parent_number, child_number, late, first, last = unpack(LINK, data)
    require((kind, parent_number > 0) in ((1, False), (2, True)))
    parent = required(catalog.relations.get(parent_number)) if kind == 2 else None
    child = required(catalog.relations.get(child_number))
    ends = read_place(first), read_place(last)
    catalog.links[number] = Link(number, read_name(name), parent, child, read_flag(late), *ends)


class Listed(NamedTuple):
    """Pages of the catalog that list definitions of one kind."""

    pages: range
    size: int
    most: int
    read: Callable[[Catalog, int, bytes], None]


LISTED = (
    Listed(range(0, 1), NAME_BYTES, len(SEGMENTS), read_segment),
    Listed(range(1, 7), RELATION.size, 48, read_relation),
    Listed(range(7, 9), IMAGE.size, 128, read_image),
    Listed(range(9, 10), LINK.size, 64, read_link),
)


def read_listed(catalog: Catalog, listed: Listed, page: int, data: bytes) -> None:
    """Reads the definitions of one page."""
    of_page = min(PAGE_BYTES // listed.size, listed.most)
    for k in range(of_page):
        entry = data[k * listed.size : (k + 1) * listed.size]
        if any(entry):
            listed.read(catalog, of_page * (page - listed.pages.start) + k + 1, entry)
    require(not any(data[of_page * listed.size :]))


def read_catalog(pages: dict[Key, bytes]) -> Catalog:
    """What the pages of the system space list."""
    catalog = Catalog()
    for listed in LISTED:
        for page in listed.pages:
            with reading(f"not a store catalog {page}"):
                data = required(pages.get(Key(0, Space.SYSTEM, page)))
                read_listed(catalog, listed, page, data)
    return catalog
