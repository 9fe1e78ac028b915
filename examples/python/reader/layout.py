"""The device of a store: its selector, roots, maps and log pages (docs/STORE.md, "The device")."""
from __future__ import annotations

from collections.abc import Iterator
from contextlib import contextmanager
from dataclasses import dataclass
from enum import IntEnum
from struct import Struct
from typing import TypeVar

T = TypeVar("T")

PAGE_BYTES = 4096
PIECE_BYTES = 4000
MAP_ENTRIES = 512
HEAD_PAGES = 3
VERSIONS = range(1, 4)
SLOTS = range(64, 65536 + 1)
LOG_PAGES = range(8, 4096 + 1)
SEGMENTS = range(1, 8 + 1)
SYSTEM_PAGES = 10
LARGEST_CHECKPOINT = 386

ROOT = Struct(">4sxB2xIIB7xQQQ48x")
MAP_ENTRY = Struct(">BB2xI")


class NotAStore(Exception):
    """The file is no store, by the place that is told."""


class OutOfForm(Exception):
    """Bytes aren't in their form."""


@contextmanager
def reading(place: str) -> Iterator[None]:
    """Has the place told if what is read within is out of form."""
    try:
        yield
    except OutOfForm:
        raise NotAStore(place) from None


def require(holds: bool) -> None:
    if not holds:
        raise OutOfForm


def required(item: T | None) -> T:
    """The item, which has to be there."""
    if item is None:
        raise OutOfForm
    return item


def unpack(form: Struct, data: bytes) -> tuple:
    """The fields of bytes in this form, whose padding is zeros."""
    require(len(data) == form.size)
    fields = form.unpack(data)
    require(form.pack(*fields) == data)
    return fields


@dataclass(frozen=True)
class Device:
    """The pages of a file."""

    data: bytes

    def __len__(self) -> int:
        return len(self.data) // PAGE_BYTES

    def page(self, number: int) -> bytes:
        return self.run(number, 1)

    def run(self, number: int, count: int) -> bytes:
        """So many pages, from this one on."""
        return self.data[number * PAGE_BYTES : (number + count) * PAGE_BYTES]


@dataclass(frozen=True)
class Root:
    """A root that is well-formed."""

    version: int
    slots: int
    log_pages: int
    area: int
    head: int
    checkpoint: int
    end: int
    tail: bytes

    @property
    def area_pages(self) -> int:
        return -(-self.slots // MAP_ENTRIES)

    @property
    def log_at(self) -> int:
        """The first log page."""
        return self.area_at(2)

    @property
    def slots_at(self) -> int:
        """The page of slot 0."""
        return self.log_at + self.log_pages

    @property
    def device_pages(self) -> int:
        return self.slots_at + self.slots

    @property
    def log_free(self) -> int:
        """How many bytes may come after the log's end."""
        return (self.head // PIECE_BYTES + self.log_pages + 1) * PIECE_BYTES - 1 - self.end

    @property
    def pieces(self) -> range:
        """The pieces of the log that stand in log pages."""
        return range(self.head // PIECE_BYTES, self.end // PIECE_BYTES)

    def area_at(self, area: int) -> int:
        """The first page of a map area."""
        return HEAD_PAGES + area * self.area_pages

    def page_of_piece(self, piece: int) -> int:
        return self.log_at + piece % self.log_pages

    def is_well_formed(self) -> bool:
        return (
            self.version in VERSIONS
            and self.slots in SLOTS
            and self.log_pages in LOG_PAGES
            and self.area < 2
            and self.head <= self.checkpoint < self.end < 2**63
            and self.log_free >= LARGEST_CHECKPOINT
        )

    def spelled(self) -> bytes:
        """The bytes of its page."""
        sizes = (self.version, self.slots, self.log_pages, self.area)
        front = ROOT.pack(b"RSSR", *sizes, self.head, self.checkpoint, self.end)
        return (front + self.tail).ljust(PAGE_BYTES, b"\0")


def read_root(page: bytes) -> Root:
    _, *numbers = ROOT.unpack(page[: ROOT.size])
    root = Root(*numbers, page[ROOT.size : ROOT.size + numbers[-1] % PIECE_BYTES])
    require(root.is_well_formed() and root.spelled() == page)
    return root


class Space(IntEnum):
    HOME = 1
    OVERFLOW = 2
    IMAGE = 3
    SYSTEM = 4


@dataclass(frozen=True, order=True)
class Key:
    """By what a page is known."""

    segment: int
    space: Space
    number: int


Map = dict[int, Key]


def read_key(entry: bytes, slots: int) -> Key:
    """The page that the entry of a slot names."""
    space, segment, number = unpack(MAP_ENTRY, entry)
    if space == Space.SYSTEM:
        require(segment == 0 and number < SYSTEM_PAGES)
    else:
        require(space in (Space.HOME, Space.OVERFLOW, Space.IMAGE) and segment in SEGMENTS and number < slots)
    return Key(segment, Space(space), number)


def read_map(device: Device, root: Root, area: int) -> Map:
    """The map of an area: the page of each slot that isn't free."""
    data = device.run(root.area_at(area), root.area_pages)
    pages: Map = {}
    seen = set()
    for slot in range(root.slots):
        entry = data[8 * slot : 8 * slot + 8]
        if any(entry):
            with reading(f"not a store slot {slot}"):
                pages[slot] = read_key(entry, root.slots)
                require(pages[slot] not in seen)
            seen.add(pages[slot])
    with reading(f"not a store slot {root.slots}"):
        require(not any(data[8 * root.slots :]))
    return pages


@dataclass(frozen=True)
class Layout:
    """A device with the root that its selector names, and with what else there may be: the other
    root, and a map in the other area."""

    device: Device
    selected: int
    root: Root
    other_root: Root | None
    map: Map
    other_map: Map | None

    @property
    def roots(self) -> dict[int, Root | None]:
        """Both roots by their numbers."""
        pair = self.root, self.other_root
        return dict(enumerate(pair if self.selected == 1 else pair[::-1], 1))

    @property
    def later_root(self) -> Root | None:
        """The other root, if its log goes further: a stop came before it was selected."""
        other = self.other_root
        return other if other is not None and other.end > self.root.end else None

    def pages(self) -> dict[Key, bytes]:
        """The pages of the map."""
        return {key: self.device.page(self.root.slots_at + slot) for slot, key in self.map.items()}

    def log(self) -> bytes:
        """The log's bytes from its head to its end."""
        pages = (self.device.page(self.root.page_of_piece(piece)) for piece in self.root.pieces)
        kept = b"".join(page[:PIECE_BYTES] for page in pages) + self.root.tail
        return kept[self.root.head % PIECE_BYTES :]


def read_other_root(device: Device, number: int, root: Root) -> Root | None:
    """The root that isn't selected, if it is one of a store of the same sizes."""
    try:
        other = read_root(device.page(number))
    except OutOfForm:
        return None
    return other if (other.slots, other.log_pages) == (root.slots, root.log_pages) else None


def read_other_map(device: Device, root: Root) -> Map | None:
    try:
        return read_map(device, root, 1 - root.area)
    except NotAStore:
        return None


def read_layout(device: Device) -> Layout:
    """The layout of a device, read in the order of an opening."""
    with reading("not a store size"):
        require(len(device.data) % PAGE_BYTES == 0 and len(device) >= HEAD_PAGES)
    selected = 1 + device.data[0] % 2
    with reading(f"not a store root {selected}"):
        root = read_root(device.page(selected))
    with reading("not a store size"):
        require(len(device) == root.device_pages)
    pages = read_map(device, root, root.area)
    with reading("damaged room"):
        require(2 * len(pages) <= root.slots)
    other_root = read_other_root(device, 3 - selected, root)
    return Layout(device, selected, root, other_root, pages, read_other_map(device, root))
