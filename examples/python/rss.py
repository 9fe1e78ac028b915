"""Stores in files, over the library for C: calls with Python values, and an exception for each refusal.

    with rss.Library("librss.so").format("my.store", 64, 8) as store:
        store.segment("shelf")
        store.relation("book", "shelf", title="text30", year="int")
        with store.begin() as work:
            work.insert("book", "Emma", 1815)
        with store.begin() as work:
            for tid, (title, year) in work.scan("book"):
                print(tid, title, year)

docs/SCRIPT.md says what each call does, and what it is refused for. A store is used on one thread, and
not after a fork.
"""
from __future__ import annotations

import ctypes
import fcntl
import io
import os
import re
from collections.abc import Iterator
from ctypes import POINTER, byref, c_bool, c_char_p, c_size_t, c_ubyte, c_uint8, c_uint32, c_uint64, c_void_p
from dataclasses import dataclass
from enum import Enum
from typing import ClassVar, Literal, NamedTuple

PAGE_BYTES = 4096

Value = int | str


class Error(Exception):
    """What a store raises of its own. A fault of its file is an OSError."""


class Ended(Error):
    """A call ended with a number other than 0 (`rss.h`). The store has to be closed, and opened anew."""

    classes: ClassVar[dict[int, type[Ended]]] = {}

    def __init_subclass__(cls, number: int) -> None:
        Ended.classes[number] = cls

    def __init__(self, number: int, text: str = "") -> None:
        super().__init__(text or f"a call ended with {number}")
        self.number, self.text = number, text


class DeviceFault(Ended, number=4):
    """The device in memory failed, or a step is gone that wasn't taken."""


class NotAStore(Ended, number=5):
    """The file holds no store. The text names the place."""


class NoMemory(Ended, number=6):
    """Memory ran out."""


class TooLong(Ended, number=7):
    """The store was asked for 2^32 - 2 calls since its opening."""


class WrongSize(Ended, number=8):
    """No store has so many slots and log pages."""


class Damaged(Ended, number=10):
    """Something was found that no store has, in the log or by a line. The text names the place."""


class Refused(Error):
    """A line was refused. No tuple and no definition has changed, and the store goes on."""

    classes: ClassVar[dict[int, type[Refused]]] = {}

    def __init_subclass__(cls, number: int) -> None:
        Refused.classes[number] = cls

    def __init__(self, number: int, reason: str) -> None:
        super().__init__(reason)
        self.number, self.reason = number, reason


class Words(Refused, number=1):
    """The line is no call: a name or a number is out of form."""


class NoTransaction(Refused, number=2):
    """The transaction isn't open."""


class AlreadyOpen(Refused, number=3):
    """The transaction is open."""


class TooMany(Refused, number=4):
    """32 other transactions are open."""


class NoSuch(Refused, number=5):
    """There is none of this name."""


class NameTaken(Refused, number=6):
    """There is one of this name."""


class Limit(Refused, number=7):
    """There are as many as may be, or it is as large as may be."""


class BadTuple(Refused, number=8):
    """A value doesn't fit its field."""

    @property
    def field(self) -> int:
        """The first such field, counted from 1."""
        return int(self.reason.split()[-1])


class NoTuple(Refused, number=9):
    """The relation has no such tuple."""


class Duplicate(Refused, number=10):
    """A unique image has these values already."""

    @property
    def tid(self) -> Tid:
        """The tuple that has them."""
        return Tid.parse(self.reason.split()[-1])


class Connected(Refused, number=11):
    """The tuple stands in a chain of the link, or has one."""


class NotConnected(Refused, number=12):
    """The tuple doesn't stand in the chain."""


class NotEmpty(Refused, number=13):
    """What is to go has something in it, or a relation has a tuple."""


class Busy(Refused, number=14):
    """Another transaction holds an item."""

    @property
    def holder(self) -> int:
        """The least transaction that holds it."""
        return int(self.reason.split()[-1])


class Full(Refused, number=15):
    """The store would need more slots than it has."""


class LogFull(Refused, number=16):
    """The log would need more bytes than it has."""


class TransactionsOpen(Refused, number=17):
    """A transaction is open."""


class NoSave(Refused, number=18):
    """The transaction has no such save point."""


@dataclass(frozen=True, order=True)
class Tid:
    """The identifier of a tuple."""

    page: int
    slot: int

    @classmethod
    def parse(cls, word: str) -> Tid:
        page, slot = word.split(".")
        return cls(int(page), int(slot))

    def __str__(self) -> str:
        return f"{self.page}.{self.slot}"


class Row(NamedTuple):
    """A tuple that a scan gave."""

    tid: Tid
    values: tuple[Value, ...]


# where a tuple comes in a chain: first, last, or right after a tuple
Spot = Literal["first", "last"] | Tid


class StepKind(Enum):
    WRITE = 1
    SYNC = 2
    RESIZE = 3


@dataclass(frozen=True)
class Step:
    """What a file is to do: write a page at a place, sync, or become so many pages long."""

    kind: StepKind
    at: int
    page: bytes


@dataclass(frozen=True)
class Counts:
    """How many pages the store has, slots it may need and has, bytes its log has room for, and calls."""

    pages: int
    room: int
    log_free: int
    calls: int
    slots: int


class _Store(ctypes.Structure):
    _fields_ = [("at", c_void_p), ("is_open", c_bool)]


class _Text(ctypes.Structure):
    _fields_ = [("length", c_size_t), ("bytes", c_ubyte * 8192), ("faults", c_uint64)]


class _Step(ctypes.Structure):
    _fields_ = [("kind", c_uint32), ("at", c_uint64), ("page", c_ubyte * PAGE_BYTES)]


class _Counts(ctypes.Structure):
    _fields_ = [
        ("pages", c_uint64),
        ("room", c_uint64),
        ("log_free", c_uint64),
        ("calls", c_uint32),
        ("slots", c_uint32),
    ]


_Page = c_ubyte * PAGE_BYTES
_STORE, _TEXT = POINTER(_Store), POINTER(_Text)

# each call of rss.h that the module makes: its result, and its arguments
_CALLS = {
    "rss_format": (c_uint32, [_STORE, c_uint32, c_uint32]),
    "rss_open": (c_uint32, [_STORE, c_char_p, c_size_t, _TEXT]),
    "rss_run_line": (c_uint32, [_STORE, c_char_p, c_size_t, _TEXT]),
    "rss_is_up": (c_bool, [_STORE]),
    "rss_next_step": (c_bool, [_STORE, POINTER(_Step)]),
    "rss_page": (c_bool, [_STORE, c_uint64, POINTER(_Page)]),
    "rss_count": (c_bool, [_STORE, POINTER(_Counts)]),
    "rss_levels": (c_uint8, [_STORE, c_char_p, c_size_t]),
    "rss_close": (None, [_STORE]),
}


class Library:
    """The shared library, which opens stores in files."""

    def __init__(self, path: str | os.PathLike[str]) -> None:
        self.calls = ctypes.CDLL(os.fspath(path))
        for name, (result, arguments) in _CALLS.items():
            call = getattr(self.calls, name)
            call.restype, call.argtypes = result, arguments

    def format(self, path: str | os.PathLike[str], slots: int, log_pages: int) -> Store:
        """Makes a file an empty store, whatever it held, and opens it."""
        engine = Engine(self)
        engine.format(slots, log_pages)
        store = Store(engine, _locked(path, os.O_RDWR | os.O_CREAT))
        _sync_folder(path)
        return store

    def open(self, path: str | os.PathLike[str]) -> Store:
        """Opens the store in a file."""
        engine, file = Engine(self), _locked(path, os.O_RDWR)
        try:
            engine.open(file.read())
        except Error:
            file.close()
            raise
        return Store(engine, file)


class Engine:
    """A store in memory, which hands out what a file is to do to keep it. It knows no file."""

    def __init__(self, library: Library) -> None:
        self._calls, self._store, self._text = library.calls, _Store(), _Text()

    def __del__(self) -> None:
        self.close()

    def format(self, slots: int, log_pages: int) -> None:
        """Makes an empty store and opens it."""
        self._ended(self._calls.rss_format(byref(self._store), slots, log_pages))

    def open(self, data: bytes) -> None:
        """Opens the store of these bytes, those of its whole file."""
        number = self._calls.rss_open(byref(self._store), data, len(data), byref(self._text))
        self._ended(number, self._written())

    def reply(self, line: bytes) -> str:
        """Runs a line of a script. Its reply, which is empty for a blank line."""
        number = self._calls.rss_run_line(byref(self._store), line, len(line), byref(self._text))
        self._ended(number, self._written())
        return self._written()

    def steps(self) -> Iterator[Step]:
        """Takes the steps that the file is to do, in their order."""
        step = _Step()
        while self._calls.rss_next_step(byref(self._store), byref(step)):
            yield Step(StepKind(step.kind), step.at, bytes(step.page))

    @property
    def is_up(self) -> bool:
        """Whether a store is open that answers lines."""
        return self._calls.rss_is_up(byref(self._store))

    def page(self, at: int) -> bytes | None:
        """The page at a place, if there is one."""
        page = _Page()
        return bytes(page) if self._calls.rss_page(byref(self._store), at, byref(page)) else None

    def counts(self) -> Counts | None:
        """What is counted of the store, if one is open."""
        found = _Counts()
        if not self._calls.rss_count(byref(self._store), byref(found)):
            return None
        return Counts(found.pages, found.room, found.log_free, found.calls, found.slots)

    def levels(self, image: str) -> int:
        """How many levels of nodes an image has; 0 if there is none of this name."""
        name = image.encode()
        return self._calls.rss_levels(byref(self._store), name, len(name))

    def close(self) -> None:
        """Closes the store, if one is open. What no `end` has committed is dropped."""
        self._calls.rss_close(byref(self._store))

    def _written(self) -> str:
        return ctypes.string_at(self._text.bytes, self._text.length).decode().rstrip("\n")

    def _ended(self, number: int, text: str = "") -> None:
        if number:
            raise Ended.classes.get(number, Ended)(number, text)


class Store:
    """A store in a file, under the lock that the program takes. A `with` block closes it."""

    def __init__(self, engine: Engine, file: io.FileIO) -> None:
        self.engine, self._file = engine, file
        self._numbers: set[int] = set()
        self._do_steps()

    def __enter__(self) -> Store:
        return self

    def __exit__(self, *_: object) -> None:
        self.close()

    def reply(self, line: bytes) -> str:
        """Runs a line of a script. Its reply, also one that is refused; empty for a blank line."""
        try:
            return self.engine.reply(line)
        finally:
            self._do_steps()

    def _do_steps(self) -> None:
        """Has the file do the steps of a call. If it doesn't do them all, the store is closed."""
        file = self._file
        try:
            for step in self.engine.steps():
                if step.kind is StepKind.WRITE:
                    _write_all(file.fileno(), step.page, step.at * PAGE_BYTES)
                elif step.kind is StepKind.SYNC:
                    os.fdatasync(file)
                else:
                    os.ftruncate(file.fileno(), step.at * PAGE_BYTES)
        except BaseException:
            self.close()
            raise

    def _ask(self, *words: str) -> str:
        """Runs a line of these words. What its reply says after `ok`."""
        reply = self.reply(" ".join(words).encode())
        if reply.startswith("refused "):
            _, number, reason = reply.split(" ", 2)
            raise Refused.classes.get(int(number), Refused)(int(number), reason)
        return reply.removeprefix("ok").removeprefix(" ")

    def segment(self, name: str) -> None:
        self._ask("segment", _named(name))

    def relation(self, name: str, segment: str, /, **fields: str) -> None:
        """Makes a relation. A field is `int`, or `textN` for texts of at most N bytes."""
        words = [f"{_named(field)}:{_named(form)}" for field, form in fields.items()]
        self._ask("relation", _named(name), _named(segment), *words)

    def image(self, name: str, relation: str, *fields: str, unique: bool = False) -> None:
        """Makes an index over fields of a relation."""
        self._ask("unique" if unique else "image", *map(_named, (name, relation, *fields)))

    def link(self, name: str, relation: str, child: str | None = None) -> None:
        """Makes a unary link, or, with a child, one of chains below the tuples of a relation."""
        self._ask("link", *map(_named, (name, relation) if child is None else (name, relation, child)))

    def drop(self, kind: Literal["segment", "relation", "image", "link"], name: str) -> None:
        self._ask("drop", _named(kind), _named(name))

    def checkpoint(self) -> None:
        """Brings all pages to the file. It commits nothing."""
        self._ask("checkpoint")

    def begin(self, number: int | None = None) -> Transaction:
        """Begins a transaction, of the least number that isn't in use if none is given."""
        if number is None:
            number = next(it for it in range(1, 2**32) if it not in self._numbers)
        self._ask("begin", f"{number:d}")
        self._numbers.add(number)
        return Transaction(self, number)

    @property
    def is_up(self) -> bool:
        """Whether the store answers calls."""
        return self.engine.is_up

    def counts(self) -> Counts | None:
        return self.engine.counts()

    def levels(self, image: str) -> int:
        return self.engine.levels(image)

    def close(self) -> None:
        """Closes the store and its file. What no `end` has committed is dropped."""
        self.engine.close()
        self._file.close()


class Transaction:
    """An open transaction. A `with` block ends it, or aborts it if an exception leaves the block."""

    def __init__(self, store: Store, number: int) -> None:
        self.store, self.number, self.is_open = store, number, True

    def __enter__(self) -> Transaction:
        return self

    def __exit__(self, kind: type[BaseException] | None, *_: object) -> None:
        if self.is_open and kind is None:
            self.end()
        elif self.is_open and self.store.is_up:
            self.abort()

    def _ask(self, call: str, *words: str) -> str:
        """Makes a call of this transaction. What its reply says after `ok`."""
        return self.store._ask(call, f"{self.number:d}", *words)

    def end(self) -> None:
        """Commits. After it all that the transaction did is in the file, and stands after every stop."""
        self._finish("end")

    def abort(self) -> None:
        """Undoes all that the transaction changed."""
        self._finish("abort")

    def _finish(self, call: Literal["end", "abort"]) -> None:
        self._ask(call)
        self.is_open = False
        self.store._numbers.discard(self.number)

    def save(self) -> int:
        """Sets a save point."""
        return int(self._ask("save"))

    def restore(self, save: int = 0) -> None:
        """Undoes what was changed since a save point; 0 is the begin."""
        self._ask("restore", f"{save:d}")

    def insert(self, relation: str, *values: Value) -> Tid:
        return Tid.parse(self._ask("insert", _named(relation), *map(_spelled, values)))

    def fetch(self, relation: str, tid: Tid) -> tuple[Value, ...]:
        return _values_of(self._ask("fetch", _named(relation), str(tid)))

    def update(self, relation: str, tid: Tid, *values: Value) -> None:
        self._ask("update", _named(relation), str(tid), *map(_spelled, values))

    def delete(self, relation: str, tid: Tid) -> None:
        self._ask("delete", _named(relation), str(tid))

    def connect(self, link: str, child: Tid, parent: Tid | None = None, *, at: Spot = "last") -> None:
        """Puts a tuple into a chain; below a parent, if the link has parents."""
        above = [] if parent is None else [str(parent)]
        spot = ["after", str(at)] if isinstance(at, Tid) else [_named(at)]
        self._ask("connect", _named(link), str(child), *above, *spot)

    def disconnect(self, link: str, child: Tid) -> None:
        self._ask("disconnect", _named(link), str(child))

    def parent(self, link: str, child: Tid) -> Tid | None:
        """The tuple below which a child stands, if it stands in a chain."""
        found = self._ask("parent", _named(link), str(child))
        return None if found == "none" else Tid.parse(found)

    def lock(self, kind: Literal["segment", "relation"], name: str, *, exclusive: bool = False) -> None:
        self._ask("lock", _named(kind), _named(name), "exclusive" if exclusive else "shared")

    def scan(self, relation: str) -> Scan:
        """Goes through all tuples of a relation, in the order of their identifiers."""
        return Scan(self, "relation", _named(relation))

    def scan_image(self, image: str, *start: Value) -> Scan:
        """Goes along an image, from the first key on that isn't below these values, if any are given."""
        return Scan(self, "image", _named(image), *(["from", *map(_spelled, start)] if start else []))

    def scan_link(self, link: str, parent: Tid | None = None) -> Scan:
        """Goes along a chain: that below a parent, if the link has parents."""
        return Scan(self, "link", _named(link), *([] if parent is None else [str(parent)]))


class Scan(Iterator[Row]):
    """An open scan. At its end it is closed, as it is with its transaction."""

    def __init__(self, work: Transaction, *path: str) -> None:
        self.work, self.number, self.is_open = work, work._ask("open", *path), True

    def __next__(self) -> Row:
        if not self.is_open:
            raise StopIteration
        reply = self.work._ask("next", self.number)
        if reply == "end":
            self.close()
            raise StopIteration
        tid, _, values = reply.partition(" ")
        return Row(Tid.parse(tid), _values_of(values))

    def close(self) -> None:
        """Closes the scan, if it is open. What it locked stays locked."""
        if self.is_open and self.work.is_open:
            self.work._ask("close", self.number)
        self.is_open = False


def _named(word: str) -> str:
    """A name as a line has it. One with a space or a quote would be other words of the line."""
    if not word.isidentifier():
        raise ValueError(f"{word!r} is no name")
    return word


def _spelled(value: Value) -> str:
    """A value as a line has it."""
    return '"' + value.replace('"', '""') + '"' if isinstance(value, str) else f"{value:d}"


def _values_of(words: str) -> tuple[Value, ...]:
    """The values of a reply."""
    found = re.findall(r'"((?:[^"]|"")*)"|([^ ]+)', words)
    return tuple(int(number) if number else text.replace('""', '"') for text, number in found)


def _locked(path: str | os.PathLike[str], flags: int) -> io.FileIO:
    """A file that no other process has locked."""
    file = io.FileIO(os.open(path, flags | os.O_CLOEXEC, 0o666), "r+")
    try:
        fcntl.flock(file, fcntl.LOCK_EX | fcntl.LOCK_NB)
    except OSError:
        file.close()
        raise
    return file


def _write_all(file: int, data: bytes, at: int) -> None:
    while data:
        count = os.pwrite(file, data, at)
        data, at = data[count:], at + count


def _sync_folder(path: str | os.PathLike[str]) -> None:
    """Has the folder of a new file keep its name."""
    folder = os.open(os.path.dirname(os.path.abspath(path)), os.O_RDONLY)
    try:
        os.fsync(folder)
    finally:
        os.close(folder)
