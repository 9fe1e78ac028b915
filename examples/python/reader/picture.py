"""Draws states of a store below one another: the pages of its device, what its map says of its slots, and the
ring of its log with the records."""
from __future__ import annotations

from collections import Counter
from dataclasses import dataclass
from functools import cached_property
from itertools import groupby

from .layout import PIECE_BYTES, Key, Root, Space
from .log import Outcome
from .store import Store
from .svg import arch, arrow, band, box, element, number, on_circle, picture, text

WIDTH = 1094
MARGIN = 20
GAP = 4
PART_WIDTH = 100
"""The width of the selector, a root and a map area."""
PART_HEIGHT = 74
LOG_X = 566
OF_ROW = 8
LOG_WIDTH = 60
SLOT_WIDTH = 62
SLOT_HEIGHT = 46
ROWS_MOST = 12
RECORDS_MOST = 12
RECORD_HEIGHT = 17
RECORD_X = 750
RING_X = LOG_X + 86
RING_RADIUS = 72
RING_WIDTH = 22
NUMBERED_MOST = 16
"""How many log pages have their numbers in the ring."""
DIVIDED_MOST = 64
"""How many log pages and how many records are divided by lines there."""

COLOURS = {
    "selector": "#f4d35e",
    "root": "#f4a259",
    "map area": "#c9a7eb",
    "log": "#8ecae6",
    "catalog": "#cfd2cd",
    "home": "#9bd18b",
    "overflow": "#5fb49c",
    "image": "#f2a7c3",
}
LINE = "#666"


@dataclass(frozen=True)
class Look:
    """How a box looks: pale, and with a dashed line, if the selected root doesn't name what it holds."""

    colour: str | None
    is_pale: bool = False
    is_changed: bool = False

    def attributes(self) -> dict[str, str | float]:
        dashes = {"stroke_dasharray": "3 2"} if self.is_pale else {}
        return {
            "fill": COLOURS[self.colour] if self.colour else "#fff",
            "fill_opacity": 0.35 if self.is_pale else 1,
            "stroke": "#c1121f" if self.is_changed else LINE,
            "stroke_width": 2.6 if self.is_changed else 1,
            **dashes,
        }


def page_box(x: float, y: float, width: float, height: float, lines: list[str], where: str, look: Look) -> list[str]:
    """A box for a page: what it is, what it says, and where it stands."""
    middle = x + width / 2
    parts = [box(x, y, width, height, **look.attributes())]
    for k, line in enumerate(lines):
        style = "name" if k == 0 else "small"
        parts.append(text(middle, y + 14 + 12.5 * k, line, text_anchor="middle", class_=style))
    parts.append(text(middle, y + height - 5, where, text_anchor="middle", class_="small"))
    return parts


def cut(words: str, most: int) -> str:
    return words if len(words) <= most else words[: most - 1] + "…"


def rows_of(places: set[int]) -> list[int]:
    """The rows that hold any of these places, the first ones of them."""
    return sorted({place // OF_ROW for place in places})[:ROWS_MOST]


@dataclass(frozen=True)
class Rows:
    """The rows of log pages and of slots that hold something in any state."""

    log: list[int]
    slots: list[int]


def find_rows(stores: list[Store]) -> Rows:
    log, slots = {0}, {0}
    for store in stores:
        layout = store.layout
        log |= {piece % layout.root.log_pages for piece in layout.root.pieces}
        slots |= layout.map.keys() | (layout.other_map or {}).keys()
    return Rows(rows_of(log), rows_of(slots))


class State:
    """Draws one state of a store, beside the state before it if there is one."""

    def __init__(self, store: Store, before: Store | None, rows: Rows, top: float) -> None:
        self.store = store
        self.layout = store.layout
        self.root = store.layout.root
        self.before = before
        self.rows = rows
        self.top = top
        self.parts: list[str] = []

    # ---- the parts of the device

    @property
    def part_y(self) -> float:
        return self.top + 56

    @property
    def below_parts(self) -> float:
        rows = len(self.rows.log)
        return self.part_y + rows * PART_HEIGHT + (rows - 1) * GAP

    @property
    def slots_y(self) -> float:
        return self.below_parts + 44

    @property
    def ring_y(self) -> float:
        """The middle of the ring."""
        return self.below_parts + 40 + RING_RADIUS

    @cached_property
    def held_pieces(self) -> dict[int, int]:
        """The piece of each log page that the selected root names."""
        return pieces_by_place(self.root)

    @cached_property
    def later_pieces(self) -> dict[int, int]:
        """The same of a later root."""
        later = self.layout.later_root
        return {} if later is None else pieces_by_place(later)

    def is_changed(self, page: int, count: int = 1) -> bool:
        """Whether pages have other bytes than in the state before."""
        if self.before is None:
            return False
        return self.before.layout.device.run(page, count) != self.layout.device.run(page, count)

    def part_x(self, place: int) -> float:
        return MARGIN + place * (PART_WIDTH + GAP)

    def part_middle(self, place: int) -> float:
        return self.part_x(place) + PART_WIDTH / 2

    def draw_part(self, place: int, lines: list[str], page: int, count: int, colour: str, is_pale: bool) -> None:
        where = f"page {page}" if count == 1 else f"pages {page} to {page + count - 1}"
        look = Look(colour, is_pale, self.is_changed(page, count))
        self.parts += page_box(self.part_x(place), self.part_y, PART_WIDTH, PART_HEIGHT, lines, where, look)

    def draw_root(self, root_number: int, root: Root | None) -> None:
        is_pale = root_number != self.layout.selected
        says = ["means nothing"] if root is None else [f"area {root.area}", f"log from {root.head}", f"to {root.end}"]
        self.draw_part(root_number, [f"root {root_number}", *says], root_number, 1, "root", is_pale)

    def draw_area(self, area: int) -> None:
        is_used = area == self.root.area
        pages = self.layout.map if is_used else self.layout.other_map
        count = "no map" if pages is None else f"{len(pages)} pages"
        lines = [f"map area {area}", count, "in use" if is_used else "not in use"]
        self.draw_part(3 + area, lines, self.root.area_at(area), self.root.area_pages, "map area", not is_used)

    def draw_device(self) -> None:
        self.draw_part(0, ["selector", f"names root {self.layout.selected}"], 0, 1, "selector", False)
        for root_number, root in self.layout.roots.items():
            self.draw_root(root_number, root)
        for area in range(2):
            self.draw_area(area)
        for row, first in enumerate(self.rows.log):
            for k in range(OF_ROW):
                self.draw_log_page(row, OF_ROW * first + k, k)

    def draw_log_page(self, row: int, place: int, column: int) -> None:
        if place >= self.root.log_pages:
            return
        page = self.root.log_at + place
        piece = self.held_pieces.get(place, self.later_pieces.get(place))
        lines = [f"log {place}"] if piece is None else [f"log {place}", f"piece {piece}"]
        is_pale = piece is not None and place not in self.held_pieces
        look = Look(None if piece is None else "log", is_pale, self.is_changed(page))
        y = self.part_y + row * (PART_HEIGHT + GAP)
        self.parts += page_box(log_page_x(column), y, LOG_WIDTH, PART_HEIGHT, lines, f"page {page}", look)

    # ---- arrows

    def draw_arrows(self) -> None:
        selected = self.layout.selected
        self.parts.append(arrow(arch(self.part_middle(0), self.part_middle(selected) - 12, self.part_y)))
        self.draw_root_arrows(selected, self.root, is_later=False)
        if self.layout.later_root is not None:
            self.draw_root_arrows(3 - selected, self.layout.later_root, is_later=True)
        x = self.part_middle(3 + self.root.area)
        self.parts.append(arrow(f"M{number(x)} {number(self.part_y + PART_HEIGHT)}V{number(self.slots_y - 4)}"))

    def draw_root_arrows(self, root_number: int, root: Root, is_later: bool) -> None:
        """Arrows to its map area, and to the log page of its first piece if that stands in the first row."""
        x = self.part_middle(root_number) + 12
        self.parts.append(arrow(arch(x, self.part_middle(3 + root.area), self.part_y), is_later))
        row, column = divmod(root.pieces.start % root.log_pages, OF_ROW)
        if root.pieces and row == self.rows.log[0]:
            to_x = log_page_x(column) + LOG_WIDTH / 2
            self.parts.append(arrow(arch(x + 12, to_x, self.part_y), is_later))

    # ---- slots

    def draw_slots(self) -> None:
        root = self.root
        words = f"data slots, pages {root.slots_at} to {root.device_pages - 1}"
        self.parts.append(text(MARGIN, self.slots_y - 8, words, class_="small"))
        for row, first in enumerate(self.rows.slots):
            for k in range(OF_ROW):
                self.draw_slot(row, OF_ROW * first + k, k)
        hidden = [slot for slot in range(root.slots) if slot // OF_ROW not in self.rows.slots]
        if hidden:
            used = sum(slot in self.layout.map for slot in hidden)
            y = self.slots_y + len(self.rows.slots) * (SLOT_HEIGHT + GAP) + 10
            words = f"the other {len(hidden)} slots have {used or 'no'} pages"
            self.parts.append(text(MARGIN, y, words, class_="small"))

    def draw_slot(self, row: int, slot: int, column: int) -> None:
        if slot >= self.root.slots:
            return
        page = self.root.slots_at + slot
        key = self.layout.map.get(slot) or (self.layout.other_map or {}).get(slot)
        lines = [] if key is None else [f"{kind_of(key)} {key.number}", self.segment_of(key)]
        is_pale = key is not None and slot not in self.layout.map
        look = Look(None if key is None else kind_of(key), is_pale, self.is_changed(page))
        x = MARGIN + column * (SLOT_WIDTH + GAP)
        y = self.slots_y + row * (SLOT_HEIGHT + GAP)
        self.parts += page_box(x, y, SLOT_WIDTH, SLOT_HEIGHT, lines, f"slot {slot}", look)

    def segment_of(self, key: Key) -> str:
        return "" if key.space == Space.SYSTEM else cut(self.store.segment_name(key.segment), 10)

    # ---- the log

    def angle(self, position: int) -> float:
        return position / PIECE_BYTES / self.root.log_pages * 360

    def draw_band(self, inner: float, outer: float, since: int, until: int, /, **attributes: str | float) -> None:
        """The part of the ring from one position of the log to another one."""
        first = self.angle(since)
        last = max(self.angle(until), first + 1.5)
        self.parts.append(band(RING_X, self.ring_y, inner, outer, first, last, **attributes))

    def draw_ring(self) -> None:
        root = self.root
        inner, outer = RING_RADIUS - RING_WIDTH, RING_RADIUS
        pieces_end = root.pieces.stop * PIECE_BYTES
        self.draw_band(inner, outer, 0, root.log_pages * PIECE_BYTES, fill="#fff", stroke=LINE)
        if root.pieces:
            self.draw_band(inner, outer, root.pieces.start * PIECE_BYTES, pieces_end, fill=COLOURS["log"], stroke=LINE)
        if root.tail:
            self.draw_band(outer + 3, outer + 11, pieces_end, root.end, fill=COLOURS["root"], stroke=LINE)
        for place in range(root.log_pages):
            self.draw_sector(place)
        self.draw_record_bands(inner)
        self.draw_middle()

    def draw_sector(self, place: int) -> None:
        start = place * PIECE_BYTES
        if self.root.log_pages <= DIVIDED_MOST:
            inner = RING_RADIUS - RING_WIDTH
            self.draw_band(inner, RING_RADIUS, start, start + PIECE_BYTES, fill="none", stroke=LINE)
        if self.root.log_pages <= NUMBERED_MOST:
            angle = self.angle(start + PIECE_BYTES // 2)
            x, y = on_circle(RING_X, self.ring_y, RING_RADIUS - RING_WIDTH / 2, angle)
            self.parts.append(text(x, y + 3.5, str(place), text_anchor="middle", class_="small"))

    def draw_record_bands(self, inner: float) -> None:
        starts = list(self.store.records)
        if len(starts) > DIVIDED_MOST:
            starts = [next(group) for _, group in groupby(starts, key=self.record_colour)]
        for at, end in zip(starts, [*starts[1:], self.root.end]):
            self.draw_band(inner - 8, inner - 2, at, end, fill=self.record_colour(at), stroke=LINE, stroke_width=0.5)

    def draw_middle(self) -> None:
        for k, words in enumerate(("log", f"from {self.root.head}", f"to {self.root.end}")):
            style = "small" if k else "name"
            self.parts.append(text(RING_X, self.ring_y - 8 + 13 * k, words, text_anchor="middle", class_=style))
        tail = f"tail of {len(self.root.tail)} bytes in root {self.layout.selected}"
        self.parts.append(text(RING_X, self.ring_y + RING_RADIUS + 26, tail, text_anchor="middle", class_="small"))

    def record_colour(self, at: int) -> str:
        if at == self.root.checkpoint:
            return COLOURS["selector"]
        return COLOURS["log"] if at > self.root.checkpoint else "#e3eef4"

    def draw_records(self) -> None:
        places = list(self.store.records)
        left_out = max(0, len(places) - RECORDS_MOST)
        y = self.below_parts + 28
        words = "records" if left_out == 0 else f"records, after {left_out} others"
        self.parts.append(text(RECORD_X, y - 4, words, class_="small"))
        for k, at in enumerate(places[left_out:]):
            self.draw_record(at, y + k * RECORD_HEIGHT)

    def draw_record(self, at: int, y: float) -> None:
        """A record with its position; the line of a change that isn't committed is dashed."""
        width = WIDTH - MARGIN - RECORD_X
        fate = self.store.fates.get(at)
        style: dict[str, str | float] = {"fill": self.record_colour(at), "stroke": LINE, "stroke_width": 0.7}
        if fate is not None and fate.outcome is not Outcome.COMMITTED:
            style["stroke_dasharray"] = "3 2"
        words = cut(f"{at}  {self.store.record_words(self.store.records[at])}", 50 if fate is None else 42)
        self.parts.append(box(RECORD_X, y, width, RECORD_HEIGHT - 2, **style))
        self.parts.append(text(RECORD_X + 6, y + 11.5, words))
        if fate is not None:
            outcome = fate.outcome.value
            self.parts.append(text(RECORD_X + width - 6, y + 11.5, outcome, text_anchor="end", class_="small"))

    # ---- all of it

    def draw_title(self) -> None:
        relations = self.store.catalog.relations
        counts = Counter(relation for relation, _ in self.store.opened.tuples)
        found = ", ".join(f"{count} of {relations[relation].name}" for relation, count in sorted(counts.items()))
        words = f"root {self.layout.selected} is selected; tuples that an opening finds: {found or 'none'}"
        self.parts.append(text(MARGIN, self.top + 16, self.store.name, class_="title"))
        self.parts.append(text(WIDTH - MARGIN, self.top + 16, words, text_anchor="end"))

    def draw(self) -> float:
        """Draws all, and gives where it ends."""
        self.draw_title()
        self.draw_device()
        self.draw_arrows()
        self.draw_slots()
        self.draw_ring()
        self.draw_records()
        slots_end = self.slots_y + len(self.rows.slots) * (SLOT_HEIGHT + GAP) + 16
        shown = min(RECORDS_MOST, len(self.store.records))
        records_end = self.below_parts + 28 + shown * RECORD_HEIGHT
        return max(slots_end, records_end, self.ring_y + RING_RADIUS + 30) + 10


def pieces_by_place(root: Root) -> dict[int, int]:
    return {piece % root.log_pages: piece for piece in root.pieces}


def log_page_x(column: int) -> float:
    return LOG_X + column * (LOG_WIDTH + GAP)


def kind_of(key: Key) -> str:
    return "catalog" if key.space == Space.SYSTEM else key.space.name.lower()


def legend(y: float, with_changes: bool) -> list[str]:
    looks = [(name, Look(name)) for name in COLOURS]
    looks.append(("not named by the selected root", Look("home", is_pale=True)))
    if with_changes:
        looks.append(("other bytes than above", Look(None, is_changed=True)))
    parts = []
    x: float = MARGIN
    for words, look in looks:
        parts.append(box(x, y, 14, 12, **look.attributes()))
        parts.append(text(x + 20, y + 10, words, class_="small"))
        x += 40 + 5.6 * len(words)
    return parts


def draw(stores: list[Store]) -> str:
    """The picture of several states of a store, or of one."""
    rows = find_rows(stores)
    parts: list[str] = []
    top: float = MARGIN / 2
    for before, store in zip([None, *stores], stores):
        state = State(store, before, rows, top)
        end = state.draw()
        parts += state.parts
        parts.append(element("path", d=f"M{MARGIN} {number(end)}H{WIDTH - MARGIN}", stroke="#ddd"))
        top = end + 14
    parts += legend(top, len(stores) > 1)
    return picture(WIDTH, top + 26, ", ".join(store.name for store in stores), parts)
