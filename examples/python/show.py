"""Tells what stands in the file of a store, or draws it. It only reads the file; a run that
has it open may be within a write. What is no store is told in one line, with the place at which it isn't."""
from __future__ import annotations

import argparse
import sys
from collections import Counter
from collections.abc import Iterator
from typing import TypeVar

from reader.catalog import Tid
from reader.layout import HEAD_PAGES, NotAStore, Root
from reader.picture import draw
from reader.store import Store, read_store

Fact = tuple[str, object, object]
Place = TypeVar("Place", bound=tuple[int, Tid | None])
Held = TypeVar("Held")

SLOTS_TOLD = 16
"""How many slots are named one by one."""


def range_of(first: int, count: int) -> str:
    return f"page {first}" if count == 1 else f"pages {first} to {first + count - 1}"


def device_facts(store: Store) -> Iterator[Fact]:
    root = store.layout.root
    yield "device", "size", f"{root.device_pages} pages"
    yield "device", "selector", "page 0"
    yield "device", "roots", range_of(1, HEAD_PAGES - 1)
    for area in range(2):
        yield "device", f"area {area}", range_of(root.area_at(area), root.area_pages)
    yield "device", "log", range_of(root.log_at, root.log_pages)
    yield "device", "data slots", range_of(root.slots_at, root.slots)
    yield "selector", "names", f"root {store.layout.selected}"


def root_state(store: Store, number: int) -> str:
    layout = store.layout
    if number == layout.selected:
        return "selected"
    if layout.other_root is None:
        return "not selected, and no root"
    return "not selected, and later" if layout.later_root else "not selected, and earlier"


def root_facts(store: Store, number: int, root: Root | None) -> Iterator[Fact]:
    part = f"root {number}"
    yield part, "is", root_state(store, number)
    if root is not None:
        yield part, "version", root.version
        yield part, "slots", root.slots
        yield part, "log pages", root.log_pages
        yield part, "area", root.area
        yield part, "head", root.head
        yield part, "checkpoint", root.checkpoint
        yield part, "end", root.end
        yield part, "tail", f"{len(root.tail)} bytes"


def other_map_fact(store: Store) -> str:
    """How the map in the other area, which a checkpoint left or was writing, differs from the one in use."""
    layout = store.layout
    if not layout.other_map:
        return "no map" if layout.other_map is None else "an empty map"
    slots = sorted({slot for slot, _ in layout.map.items() ^ layout.other_map.items()})
    if not slots:
        return "the same map"
    where = ", ".join(map(str, slots)) if len(slots) <= SLOTS_TOLD else f"{len(slots)} of them"
    return f"another map, in slots {where}"


def map_facts(store: Store) -> Iterator[Fact]:
    layout = store.layout
    spaces = Counter((key.segment, key.space) for key in layout.map.values())
    yield "map", f"area {layout.root.area}", "in use"
    yield "map", f"area {1 - layout.root.area}", other_map_fact(store)
    yield "map", "used slots", len(layout.map)
    for (segment, space), count in sorted(spaces.items()):
        where = "catalog" if segment == 0 else f"{store.segment_name(segment)} {space.name.lower()}"
        yield "map", where, count
    yield "map", "free slots", layout.root.slots - len(layout.map)


def relation_facts(store: Store) -> Iterator[Fact]:
    for relation in store.catalog.relations.values():
        part = f"relation {relation.number}"
        yield part, relation.name, f"in {store.segment_name(relation.segment)}"
        yield part, "tuples saved", relation.count
        for number, field in enumerate(relation.fields, 1):
            yield part, f"field {number}", f"{field}, added" if field.added else field


def image_facts(store: Store) -> Iterator[Fact]:
    for image in store.catalog.images.values():
        part = f"image {image.number}"
        fields = " ".join(field.name for field in image.fields)
        yield part, image.name, f"of {image.relation.name} by {fields}{', unique' if image.is_unique else ''}"
        yield part, "levels", image.levels
        yield part, "root page", image.root


def link_facts(store: Store) -> Iterator[Fact]:
    for link in store.catalog.links.values():
        part = f"link {link.number}"
        form = f"below {link.parent.name}" if link.parent else "in one chain"
        yield part, link.name, f"{link.child.name} {form}{', late' if link.is_late else ''}"
        if link.parent is None:
            yield part, "first", link.first or "none"
            yield part, "last", link.last or "none"


def compared(kind: str, saved: dict[Place, Held], opened: dict[Place, Held]) -> Iterator[tuple[str, Place, Held]]:
    """What is saved and found by an opening, and what only one of these has."""
    for key in sorted(saved.keys() | opened.keys(), key=lambda key: (key[0], key[1] or ())):
        before, after = saved.get(key), opened.get(key)
        if before is not None:
            yield kind if before == after else f"{kind} gone", key, before
        if after is not None and before != after:
            yield f"{kind} new", key, after


def table_facts(store: Store) -> Iterator[Fact]:
    for part, (relation, tid), data in compared("tuple", store.saved.tuples, store.opened.tuples):
        yield part, store.tuple_name(relation, tid), store.values(relation, data)
    for part, (link, parent), tids in compared("chain", store.saved.chains, store.opened.chains):
        yield part, store.chain_name(link, parent), " ".join(map(str, tids))


def log_facts(store: Store) -> Iterator[Fact]:
    for at, record in store.records.items():
        says = [store.record_words(record)]
        if at in store.fates:
            says.append(store.fates[at].outcome.value)
        if values := store.record_values(record):
            says.append(values)
        yield "log newer" if at >= store.layout.root.checkpoint else "log", at, "; ".join(says)


def facts(store: Store, with_tuples: bool) -> Iterator[Fact]:
    """All facts of a store: what each is of, what it is about, and what it says."""
    yield from device_facts(store)
    for number, root in store.layout.roots.items():
        yield from root_facts(store, number, root)
    yield from map_facts(store)
    for number, name in store.catalog.segments.items():
        yield f"segment {number}", name, ""
    yield from relation_facts(store)
    yield from image_facts(store)
    yield from link_facts(store)
    if with_tuples:
        yield from table_facts(store)
    yield from log_facts(store)


def words() -> argparse.Namespace:
    parser = argparse.ArgumentParser(prog="show.py", description=__doc__)
    parser.add_argument("--tuples", action="store_true", help="tells the tuples and chains as well")
    parser.add_argument("--svg", action="store_true", help="writes a picture of the store, or of several states of it")
    parser.add_argument("files", nargs="+", metavar="FILE")
    args = parser.parse_args()
    if not args.svg and len(args.files) > 1:
        parser.error("one file is told at a time; several go with --svg")
    return args


def line_of(fact: Fact) -> str:
    part, about, says = fact
    return f"{part:<12}{about!s:<24}{says}".rstrip()


def shown(args: argparse.Namespace) -> str:
    """The facts of a store or the picture of several."""
    if args.svg:
        return draw([read_store(file) for file in args.files])
    return "\n".join(line_of(fact) for fact in facts(read_store(args.files[0]), args.tuples))


def main() -> None:
    try:
        sys.stdout.buffer.write(f"{shown(words())}\n".encode())
    except (NotAStore, OSError) as error:
        sys.exit(f"show.py: {error}")


if __name__ == "__main__":
    main()
