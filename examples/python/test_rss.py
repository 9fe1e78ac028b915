"""Tries the module `rss` over files in a new folder: test_rss.py LIBRARY."""
import contextlib
import errno
import io
import os
import resource
import sys
import tempfile
import unittest
from pathlib import Path

import rss

LIBRARY_PATH = str(Path(sys.argv.pop(1)).resolve())
LIBRARY = rss.Library(LIBRARY_PATH)


class Case(unittest.TestCase):
    def setUp(self) -> None:
        folder = tempfile.TemporaryDirectory()
        self.addCleanup(folder.cleanup)
        self.path = Path(folder.name, "my.store")
        self.store = LIBRARY.format(self.path, 256, 8)
        self.addCleanup(lambda: self.store.close())
        self.store.segment("s")

    def reopen(self) -> None:
        self.store.close()
        self.store = LIBRARY.open(self.path)

    def refused(self, error: type[rss.Refused], reason: str):
        """A block that a refusal leaves: of this class and number, with this reason."""
        return self.assertRaisesRegex(error, f"^{reason}$")


class Calls(Case):
    """Each call once, with its values."""

    def test_tuples(self) -> None:
        self.store.relation("r", "s", name="text20", segment="int")
        with self.store.begin() as work:
            first = work.insert("r", "", 2**63 - 1)
            second = work.insert("r", 'a "b"  é', -(2**63))
            self.assertEqual((first, second), (rss.Tid(0, 0), rss.Tid(0, 1)))
        self.reopen()
        with self.store.begin() as work:
            self.assertEqual(work.fetch("r", first), ("", 2**63 - 1))
            self.assertEqual(work.fetch("r", second), ('a "b"  é', -(2**63)))
            work.update("r", first, "refused 9", 0)
            work.delete("r", second)
        with self.store.begin() as work:
            self.assertEqual(list(work.scan("r")), [rss.Row(first, ("refused 9", 0))])

    def test_image(self) -> None:
        self.store.relation("r", "s", a="int", b="text9")
        self.store.image("i", "r", "b", "a")
        with self.store.begin() as work:
            for number, text in enumerate(["c", "a", "b"]):
                work.insert("r", number, text)
        with self.store.begin() as work:
            self.assertEqual([values for _, values in work.scan_image("i")], [(1, "a"), (2, "b"), (0, "c")])
            self.assertEqual([row.tid.slot for row in work.scan_image("i", "b", 0)], [2, 0])
        self.assertEqual((self.store.levels("i"), self.store.levels("j")), (1, 0))

    def test_links(self) -> None:
        self.store.relation("dept", "s", a="int")
        self.store.relation("emp", "s", a="int")
        self.store.link("works", "dept", "emp")
        self.store.link("queue", "emp")
        with self.store.begin() as work:
            dept, *emps = work.insert("dept", 0), *(work.insert("emp", number) for number in range(3))
            work.connect("works", emps[0], dept)
            work.connect("works", emps[1], dept, at="first")
            work.connect("works", emps[2], dept, at=emps[1])
            work.connect("queue", emps[0])
            self.assertEqual([tid for tid, _ in work.scan_link("works", dept)], [emps[1], emps[2], emps[0]])
            self.assertEqual([tid for tid, _ in work.scan_link("queue")], [emps[0]])
            work.disconnect("works", emps[0])
            self.assertEqual([work.parent("works", emp) for emp in emps], [None, dept, dept])

    def test_save_points(self) -> None:
        self.store.relation("r", "s", a="int")
        work = self.store.begin(7)
        work.insert("r", 1)
        save = work.save()
        work.insert("r", 2)
        work.restore(save)
        self.assertEqual([values for _, values in work.scan("r")], [(1,)])
        work.restore()
        self.assertEqual(list(work.scan("r")), [])
        with self.refused(rss.NoSave, "no save"):
            work.restore(save)
        work.abort()

    def test_locks(self) -> None:
        self.store.relation("r", "s", a="int")
        with self.store.begin() as work, self.store.begin() as other:
            work.lock("relation", "r")
            other.lock("relation", "r")
            with self.refused(rss.Busy, "busy relation r by 2"):
                work.lock("relation", "r", exclusive=True)
            with self.refused(rss.Busy, "busy segment s by 1"):
                other.lock("segment", "s", exclusive=True)

    def test_definitions(self) -> None:
        self.store.relation("r", "s", a="int")
        self.store.image("i", "r", "a", unique=True)
        self.store.link("l", "r")
        for kind, name in [("link", "l"), ("image", "i"), ("relation", "r"), ("segment", "s")]:
            self.store.drop(kind, name)
        self.store.checkpoint()
        self.assertEqual(self.store.counts().slots, 256)

    def test_scans(self) -> None:
        self.store.relation("r", "s", a="int")
        with self.store.begin() as work:
            scans = [work.scan("r") for _ in range(256)]
            with self.refused(rss.Limit, "limit scans"):
                work.scan("r")
            self.assertEqual(list(scans.pop()), [])
            scans.pop().close()
            left = [work.scan("r") for _ in range(2)]
        self.assertRaises(rss.NoTransaction, next, left[0])
        left[1].close()
        self.assertEqual(list(left[1]), [])


class Refusals(Case):
    """The refusals of a line, and that the store goes on."""

    def test_each(self) -> None:
        self.store.relation("r", "s", a="int")
        self.store.image("i", "r", "a", unique=True)
        with self.store.begin() as work:
            tid = work.insert("r", 7)
            with self.refused(rss.Words, "words"):
                work.insert("r", 2**63)
            with self.refused(rss.AlreadyOpen, "already open"):
                self.store.begin(work.number)
            with self.refused(rss.NoSuch, "no such relation"):
                work.insert("q", 7)
            with self.refused(rss.BadTuple, "bad tuple 1") as bad:
                work.insert("r", "a line\nin two")
            with self.refused(rss.NoTuple, "no tuple r 0.1"):
                work.fetch("r", rss.Tid(0, 1))
            with self.refused(rss.Duplicate, "duplicate i 0.0") as duplicate:
                work.insert("r", 7)
            with self.refused(rss.TransactionsOpen, "transactions open 1"):
                self.store.segment("t")
            with self.refused(rss.Busy, "busy tuple r 0.0 by 1") as busy, self.store.begin() as other:
                other.fetch("r", tid)
        self.assertEqual((bad.exception.field, duplicate.exception.tid, busy.exception.holder), (1, tid, 1))
        with self.refused(rss.NameTaken, "name taken"):
            self.store.segment("s")
        with self.refused(rss.NotEmpty, "not empty"):
            self.store.drop("segment", "s")
        for name in ["r 7", 'r"', ""]:
            with self.assertRaises(ValueError), self.store.begin() as work:
                work.insert(name)
        with self.store.begin() as work:
            self.assertEqual(work.fetch("r", tid), (7,))

    def test_chains(self) -> None:
        self.store.relation("r", "s", a="int")
        self.store.link("l", "r")
        with self.store.begin() as work:
            one, two = work.insert("r", 1), work.insert("r", 2)
            work.connect("l", one)
            with self.refused(rss.Connected, "connected l"):
                work.connect("l", one)
            with self.refused(rss.NotConnected, "not connected l"):
                work.disconnect("l", two)

    def test_room(self) -> None:
        self.store.relation("r", "s", a="int")
        with self.refused(rss.Full, "full 256 [0-9]+"), self.store.begin() as work:
            for number in range(256):
                work.insert("r", number)
        with self.store.begin() as work:
            self.assertEqual(list(work.scan("r")), [])

    def test_open_at_a_time(self) -> None:
        open_now = [self.store.begin() for _ in range(32)]
        with self.refused(rss.TooMany, "too many"):
            self.store.begin()
        open_now[4].end()
        self.assertEqual(self.store.begin().number, 5)


class Example(Case):
    """The example of the module's own text."""

    def test_example(self) -> None:
        lines = [line[4:] for line in rss.__doc__.splitlines() if line.startswith("    ")]
        self.store.close()
        self.addCleanup(os.chdir, os.getcwd())
        os.chdir(self.path.parent)
        with contextlib.redirect_stdout(io.StringIO()) as said:
            exec("\n".join(lines).replace('"librss.so"', "path"), {"rss": rss, "path": LIBRARY_PATH})
        self.assertEqual(said.getvalue(), "0.0 Emma 1815\n")


class Ends(Case):
    """What ends a transaction or a store, and what stands then."""

    def test_an_exception_aborts(self) -> None:
        self.store.relation("r", "s", a="int")
        with self.assertRaises(KeyError), self.store.begin() as work:
            work.insert("r", 1)
            raise KeyError
        with self.store.begin() as work:
            self.assertEqual(list(work.scan("r")), [])

    def test_what_is_not_ended_is_dropped(self) -> None:
        self.store.relation("r", "s", a="int")
        with self.store.begin() as work:
            work.insert("r", 1)
        self.store.begin().insert("r", 2)
        self.reopen()
        with self.store.begin() as work:
            self.assertEqual([values for _, values in work.scan("r")], [(1,)])

    def test_the_file_has_each_page(self) -> None:
        self.store.relation("r", "s", a="int")
        for number in range(20):
            with self.store.begin() as work:
                work.insert("r", number)
            data = self.path.read_bytes()
            pages = [self.store.engine.page(at) for at in range(self.store.counts().pages)]
            self.assertEqual(b"".join(pages), data)
            copy = rss.Engine(LIBRARY)
            copy.open(data)
            self.assertEqual(copy.reply(b"begin 1"), "ok")
            self.assertEqual(copy.reply(b"fetch 1 r 0.%d" % number), f"ok {number}")
        self.assertIsNone(self.store.engine.page(len(pages)))

    def test_a_file_that_fails_closes_the_store(self) -> None:
        self.store.relation("r", "s", a="int")
        limits = resource.getrlimit(resource.RLIMIT_FSIZE)
        self.addCleanup(resource.setrlimit, resource.RLIMIT_FSIZE, limits)
        resource.setrlimit(resource.RLIMIT_FSIZE, (4096, limits[1]))
        with self.assertRaises(OSError) as failed, self.store.begin() as work:
            work.insert("r", 1)
        self.assertEqual(failed.exception.errno, errno.EFBIG)
        self.assertFalse(self.store.is_up)
        self.assertRaises(rss.Ended, self.store.begin)
        resource.setrlimit(resource.RLIMIT_FSIZE, limits)
        self.reopen()
        with self.store.begin() as work:
            self.assertEqual(list(work.scan("r")), [])

    def test_a_store_is_opened_once(self) -> None:
        self.assertRaises(BlockingIOError, LIBRARY.open, self.path)
        self.assertRaises(BlockingIOError, LIBRARY.format, self.path, 64, 8)
        self.reopen()

    def test_no_store(self) -> None:
        other = self.path.with_name("other")
        self.assertRaises(FileNotFoundError, LIBRARY.open, other)
        self.assertRaises(rss.WrongSize, LIBRARY.format, other, 63, 8)
        self.assertFalse(other.exists())
        other.write_bytes(bytes(40960))
        with self.assertRaisesRegex(rss.NotAStore, "^not a store root 1$") as refused:
            LIBRARY.open(other)
        self.assertEqual(refused.exception.number, 5)
        LIBRARY.format(other, 64, 8).close()

    def test_damage(self) -> None:
        number = 0x1122334455667788
        self.store.relation("r", "s", a="int")
        with self.store.begin() as work:
            work.insert("r", number)
        self.store.checkpoint()
        self.store.close()
        data = self.path.read_bytes()
        at = data.index(b"\x01" + number.to_bytes(8, "big"))
        self.path.write_bytes(data[:at] + b"\xff" + data[at + 1 :])
        with self.assertRaisesRegex(rss.NotAStore, "^not a store tuple "):
            LIBRARY.open(self.path)


if __name__ == "__main__":
    unittest.main()
