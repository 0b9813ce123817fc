#!/usr/bin/env python3
"""test_page.py [--only BROWSER] [--shots DIR] [--test WORD].. PROGRAM

Tries bin/page.html, and bin/page from a server of this machine, in Chromium and in Firefox. Files
are dropped and chosen, keys are pressed, and what the page then shows is compared with the output
of PROGRAM. After the tests of each browser its console has to be empty, and no request may have
left the page. DIR gets pictures of the page. `--test` takes the tests alone that have WORD in their
names. Needs chromium and firefox-esr, and Python alone.
"""
import argparse
import functools
import http.server
import os
import sys
import tempfile
import threading
import time

sys.dont_write_bytecode = True
sys.path.insert(0, os.path.dirname(os.path.abspath(__file__)))

import made  # noqa: E402
from chromium import Chromium  # noqa: E402
from firefox import Firefox  # noqa: E402
from cases import EXAMPLES, TOP, Cases, counts_agree  # noqa: E402

PAGE = "file://" + os.path.join(TOP, "bin", "page.html")
FOLDER = os.path.join(TOP, "bin", "page")
# So many pieces of 65,536 bytes are the engine's memory in the test of that.
PAGES = 60
NO_MEMORY = ("addrman: out of memory",)
FILES = ["engine.js", "index.html", "page.css", "page.js"]


class Quiet(http.server.SimpleHTTPRequestHandler):
    def log_message(self, *_):
        """Says nothing of the requests."""


def served(folder):
    """A server of the files of a folder on this machine."""
    handler = functools.partial(Quiet, directory=folder)
    server = http.server.ThreadingHTTPServer(("127.0.0.1", 0), handler)
    threading.Thread(target=server.serve_forever, daemon=True).start()
    return server


def try_file(kind, program, shots, words):
    """The cases, over the single file."""
    browser = kind()
    try:
        browser.look(1280, 1000)
        browser.open(PAGE)
        with tempfile.TemporaryDirectory(prefix="page-test-") as folder:
            cases = Cases(browser, program, folder, shots)
            for name in [name for name in vars(Cases) if name.startswith("test_")]:
                if words and not any(word in name for word in words):
                    continue
                started = time.time()
                getattr(cases, name)()
                said = name.removeprefix("test_").replace("_", " ")
                print(f"{kind.name}: {said}: {time.time() - started:.1f} s", flush=True)
        assert browser.said() == [], browser.said()
        assert browser.asked() == [], browser.asked()
        # These are refused, and the console says so.
        for name in ("fetched", "fetchedByWorker", "loaded"):
            assert browser.js(f"return look.{name}()") == "refused", name
    finally:
        browser.end()


def try_little_memory(program):
    """A page that has no memory for a file says so, and shows the next one. Chromium alone can be
    told how much there is."""
    browser = Chromium(options=[f"--js-flags=--wasm-max-mem-pages={PAGES}"])
    try:
        browser.open(PAGE)
        with tempfile.TemporaryDirectory(prefix="page-memory-") as folder:
            large = made.replayed(program, folder, made.log_of(3, 40, 1000))
            small = os.path.join(EXAMPLES, "node", "peers.dat")
            for _ in range(2):
                browser.drop(small)
                assert browser.js("return data.count") > 0 and not browser.text("error")
                browser.drop(large, state="error")
                said = browser.text("error")
                assert said in NO_MEMORY or said.startswith("The engine stopped"), said
        assert browser.said() == [], browser.said()
    finally:
        browser.end()


def try_folder(kind, shots):
    """The folder from a server, for a reader who wants a dark ground."""
    browser, server = kind(dark=True), served(FOLDER)
    own = f"http://127.0.0.1:{server.server_port}/"
    try:
        browser.look(1280, 1000)
        browser.open(own + "index.html")
        browser.give(os.path.join(EXAMPLES, "node", "peers.dat"))
        assert browser.js("return colour('--ground')[0]") < 64
        assert counts_agree(browser)
        assert browser.said() == [], browser.said()
        asked = sorted({url.removeprefix(own) for url in browser.asked()})
        assert asked == FILES, asked
        if shots:
            browser.shot(os.path.join(shots, f"{kind.name}-dark.png"))
    finally:
        browser.end()
        server.shutdown()


def main():
    parser = argparse.ArgumentParser(
        description=__doc__, formatter_class=argparse.RawDescriptionHelpFormatter
    )
    parser.add_argument("--only", choices=["chromium", "firefox"])
    parser.add_argument("--shots", metavar="DIR", type=os.path.abspath)
    parser.add_argument("--test", action="append", metavar="WORD")
    parser.add_argument("program", type=os.path.abspath)
    asked = parser.parse_args()
    for kind in (Chromium, Firefox):
        if asked.only in (None, kind.name):
            try_file(kind, asked.program, asked.shots, asked.test)
            try_folder(kind, asked.shots)
            if kind is Chromium:
                try_little_memory(asked.program)
                print("chromium: with little memory it says so, and goes on")
            print(f"{kind.name}: no word on the console, and no request to another machine")


if __name__ == "__main__":
    main()
