"""Runs the lines of standard input over the store in a file, and prints their replies:
script.py LIBRARY FILE [SLOTS LOG_PAGES]. With sizes, the file is made a store first."""
import sys

import rss


def run(library: str, path: str, *sizes: str) -> int:
    """How the run ends, as the program would."""
    make_or_open = rss.Library(library)
    try:
        with make_or_open.format(path, *map(int, sizes)) if sizes else make_or_open.open(path) as store:
            for line in sys.stdin.buffer:
                if reply := store.reply(line.removesuffix(b"\n")):
                    print(reply)
    except rss.Ended as ended:
        print(ended.text, end="\n" if ended.text else "")
        return ended.number
    except OSError:
        return 4
    return 0


sys.stdout.reconfigure(encoding="utf-8")
sys.exit(run(*sys.argv[1:]))
