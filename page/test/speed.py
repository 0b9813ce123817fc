#!/usr/bin/env python3
"""speed.py [--only BROWSER] PROGRAM: how long the page takes for a file whose tables are full.

Makes such a file, drops it on bin/page.html five times, and prints the middle one of each time in
milliseconds: until the first picture is on the screen, until all is known, until the shares of
picks are there; and for drawing both maps anew, and for moving the cursor to another slot. Then 120
frames each with a move of the pointer, with a key, and with other colours: the middle time from a
frame to the next, and how many took more than one and a half of 1/60 s. Ends with status 1 if the
first picture takes more than a second, or if a move or a frame with the pointer or a key takes more
than one of 60 in a second.
"""
import argparse
import json
import os
import statistics
import sys
import tempfile

sys.dont_write_bytecode = True
sys.path.insert(0, os.path.dirname(os.path.abspath(__file__)))

import made  # noqa: E402
from chromium import Chromium  # noqa: E402
from firefox import Firefox  # noqa: E402
from test_page import PAGE  # noqa: E402

NAMES = ("first picture", "all known", "shares of picks", "maps drawn anew", "cursor moved")
MOST = {"first picture": 1000, "cursor moved": 1000 / 60}
WORKS = {"pointer": "overSlots", "keys": "byKeys", "colours": "recolour"}
FRAMES, FRAME = 120, 1000 / 60


def full_file(program, folder):
    """A file with nearly all slots in use."""
    path = made.replayed(program, folder, made.full_log())
    raw = json.loads(made.output(program, ["raw"], folder))
    print(f"{len(raw['new'])} slots of the new table and {len(raw['tried'])} of the tried one")
    return path


def times_of(browser, path):
    """The times of one drop."""
    browser.open(PAGE)
    browser.js("look.watch()")
    browser.drop(path)
    browser.wait("watched.shares")
    found = browser.js("return [watched.drawn, watched.ready, watched.shares]")
    return [*found, *browser.js("return [look.redraw(), look.move()]")]


def frames_of(browser):
    """The middle time of a frame with each kind of work, and how many frames took much longer."""
    for name, work in WORKS.items():
        times = browser.js(f"return look.frames(look.{work}, {FRAMES})")
        yield name, statistics.median(times), sum(time > 1.5 * FRAME for time in times)


def main():
    parser = argparse.ArgumentParser(
        description=__doc__, formatter_class=argparse.RawDescriptionHelpFormatter
    )
    parser.add_argument("--only", choices=["chromium", "firefox"])
    parser.add_argument("program", type=os.path.abspath)
    asked = parser.parse_args()
    slow = 0
    with tempfile.TemporaryDirectory(prefix="page-speed-") as folder:
        path = full_file(asked.program, folder)
        for kind in (Chromium, Firefox):
            if asked.only not in (None, kind.name):
                continue
            browser = kind()
            try:
                browser.look(1280, 1000)
                found = [times_of(browser, path) for _ in range(5)]
                frames = list(frames_of(browser))
            finally:
                browser.end()
            for name, times in zip(NAMES, zip(*found)):
                middle = statistics.median(times)
                slow += middle > MOST.get(name, middle)
                print(f"{kind.name}: {name}: {middle:.0f} ms, {min(times):.0f} to {max(times):.0f}")
            for name, middle, late in frames:
                slow += name != "colours" and middle > 1.1 * FRAME
                print(f"{kind.name}: frames with {name}: {middle:.1f} ms, {late} of {FRAMES} late")
    return 1 if slow else 0


if __name__ == "__main__":
    sys.exit(main())
