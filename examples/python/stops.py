"""Stops a new store within each write of a script's run and after each of its steps, and opens what
the stop leaves: stops.py LIBRARY < SCRIPT. Prints each line with how many stops it had."""
import sys
from collections.abc import Iterator

from rss import PAGE_BYTES, Ended, Engine, Library, StepKind


def stops(store: Engine, file: bytearray) -> Iterator[bytes]:
    """Has the file do the steps of a call. Gives what a stop within each write and after each step
    leaves."""
    for step in store.steps():
        place = step.at * PAGE_BYTES
        if step.kind is StepKind.WRITE:
            yield bytes(file[:place]) + step.page[:2048] + bytes(file[place + 2048 :])
            file[place : place + PAGE_BYTES] = step.page
        elif step.kind is StepKind.RESIZE:
            file.extend(bytes(place - len(file)))
        yield bytes(file)


def opens(library: Library, data: bytes) -> bool:
    """Whether a store opens that a stop has left."""
    try:
        Engine(library).open(data)
    except Ended:
        return False
    return True


library, file = Library(sys.argv[1]), bytearray()
store = Engine(library)
store.format(64, 8)
for left in stops(store, file):
    pass  # The file is a store after the last step.
for line in sys.stdin.buffer.read().splitlines():
    store.reply(line)
    opened = [opens(library, left) for left in stops(store, file)]
    print(len(opened), line.decode())
    if not all(opened):
        sys.exit("a stop left no store")
