"""What Chromium and Firefox do alike in the tests of the page.

Each also has `open`, `js`, `give` (files by the page's own control), `drop` (files as from a file
manager), `key`, `look` (the size), `shot`, `said` (what the console says) and `asked` (each request
to a server).
"""
import json
import os
import time

LIMIT = 240
STATE = "document.documentElement.dataset.state"
OWN = ("blob:", "data:", "file:", "about:")
CHOOSE = """const e = $(arguments[0]);
e.value = arguments[1];
e.dispatchEvent(new Event(arguments[2], { bubbles: true }))"""


class Ended(Exception):
    """The browser has ended, or does not answer."""


class Browser:
    # Whether `drop` can drop a folder.
    drops_folders = False

    def wait(self, holds, limit=LIMIT):
        """Waits until an expression of the page holds."""
        end = time.time() + limit
        while not self.js(f"return !!({holds})"):
            if time.time() > end:
                text = self.js("return document.body.innerText")[:2000]
                raise Ended(f"{self.name}: not so after {limit} s: {holds}\n{text}\n{self.said()}")
            time.sleep(0.03)

    def opened(self):
        """Waits until the engine can be used, and brings what the tests read of the page."""
        self.wait("document.documentElement && document.documentElement.dataset.engine")
        path = os.path.join(os.path.dirname(os.path.abspath(__file__)), "look.js")
        with open(path, encoding="utf-8") as file:
            self.js(file.read())

    def busy(self):
        self.js(f"{STATE} = 'busy'")

    def begin(self, script, *values, state="ready"):
        """Runs a script that the page works on, and waits for the state in which it ends."""
        self.js(f"{STATE} = 'busy'; {script}", *values)
        self.until(state)

    def until(self, state):
        self.wait(f"{STATE} === 'ready' || {STATE} === 'error'")
        found = self.js(f"return {STATE}")
        assert found == state, (self.name, found, self.js("return $('error').textContent"))

    def choose(self, name, value, event="change"):
        self.js(CHOOSE, name, value, event)

    def text(self, name):
        return self.js("const e = $(arguments[0]); return e.hidden ? '' : e.innerText", name)

    def note_request(self, url):
        if not url.startswith(OWN):
            self.requests.append(url)

    def asked(self):
        return self.requests

    def said(self):
        """What the console has said. The call lets events come in that are on their way."""
        self.js("return 0")
        return self.messages


def called(script, values):
    """A function with this body, called with these values, as an expression."""
    return f"(function() {{ {script}\n }}).apply(null, {json.dumps(values)})"
