"""Chromium by its DevTools protocol over two pipes."""
import base64
import json
import os
import select
import shutil
import subprocess
import tempfile
import time

from browser import LIMIT, Browser, Ended, called

OPTIONS = [
    "--headless=new",
    "--no-sandbox",
    "--disable-gpu",
    "--hide-scrollbars",
    "--no-first-run",
    "--remote-debugging-pipe",
]
KEYS = {
    "Tab": 9,
    "Enter": 13,
    "Escape": 27,
    "PageUp": 33,
    "PageDown": 34,
    "End": 35,
    "Home": 36,
    "ArrowLeft": 37,
    "ArrowUp": 38,
    "ArrowRight": 39,
    "ArrowDown": 40,
}


class Chromium(Browser):
    name = "chromium"
    drops_folders = True

    def __init__(self, dark=False, options=()):
        self.folder = tempfile.mkdtemp(prefix="page-chromium-")
        to_browser, self.to = os.pipe()
        self.back, from_browser = os.pipe()
        # The browser reads descriptor 3 and writes 4.
        script = f'exec "$0" "$@" 3<&{to_browser} 4>&{from_browser}'
        own = [*options, f"--user-data-dir={self.folder}"]
        words = ["chromium", *OPTIONS, *own, "about:blank"]
        self.process = subprocess.Popen(
            ["sh", "-c", script, *words],
            pass_fds=(to_browser, from_browser),
            stdout=subprocess.DEVNULL,
            stderr=subprocess.DEVNULL,
        )
        os.close(to_browser)
        os.close(from_browser)
        self.number, self.rest, self.messages, self.requests, self.session = 0, b"", [], [], None
        target = self.call("Target.createTarget", url="about:blank")["targetId"]
        found = self.call("Target.attachToTarget", targetId=target, flatten=True)
        self.session = found["sessionId"]
        for domain in ("Page", "Runtime", "Log", "Network", "DOM", "Accessibility"):
            self.call(domain + ".enable")
        # The page's workers say what they ask for, too, and wait for that before they begin.
        attach = {"autoAttach": True, "waitForDebuggerOnStart": True, "flatten": True}
        self.call("Target.setAutoAttach", **attach)
        ground = {"name": "prefers-color-scheme", "value": "dark" if dark else "light"}
        self.call("Emulation.setEmulatedMedia", features=[ground])

    def receive(self):
        end = time.time() + LIMIT
        while b"\0" not in self.rest:
            if not select.select([self.back], [], [], max(0, end - time.time()))[0]:
                raise Ended("chromium does not answer")
            piece = os.read(self.back, 1 << 20)
            if not piece:
                raise Ended("chromium has ended")
            self.rest += piece
        text, self.rest = self.rest.split(b"\0", 1)
        return json.loads(text)

    def send(self, session, method, **values):
        self.number += 1
        message = {"id": self.number, "method": method, "params": values}
        if session:
            message["sessionId"] = session
        data = json.dumps(message).encode() + b"\0"
        while data:
            data = data[os.write(self.to, data) :]
        return self.number

    def call(self, method, **values):
        number = self.send(self.session, method, **values)
        while True:
            answer = self.receive()
            if answer.get("id") == number:
                if "error" in answer:
                    raise Ended(f"{method}: {answer['error']}")
                return answer["result"]
            self.note(answer.get("method"), answer.get("params", {}))

    def note(self, event, values):
        if event == "Log.entryAdded":
            self.messages.append(values["entry"]["text"])
        elif event == "Runtime.consoleAPICalled":
            self.messages.append(str([part.get("value") for part in values["args"]]))
        elif event == "Runtime.exceptionThrown":
            self.messages.append(str(values["exceptionDetails"]))
        elif event == "Network.requestWillBeSent":
            self.note_request(values["request"]["url"])
        elif event == "Network.webSocketCreated":
            self.note_request(values["url"])
        elif event == "Target.attachedToTarget" and values["targetInfo"]["type"] == "worker":
            for method in ("Network.enable", "Runtime.enable", "Runtime.runIfWaitingForDebugger"):
                self.send(values["sessionId"], method)

    def open(self, address):
        self.call("Page.navigate", url=address)
        self.opened()

    def js(self, script, *values):
        text = called(script, values)
        found = self.call(
            "Runtime.evaluate", expression=text, returnByValue=True, awaitPromise=True
        )
        if "exceptionDetails" in found:
            raise AssertionError(f"chromium: {script[:200]}: {found['exceptionDetails']}")
        return found["result"].get("value")

    def give(self, *paths, state="ready"):
        self.busy()
        root = self.call("DOM.getDocument")["root"]["nodeId"]
        node = self.call("DOM.querySelector", nodeId=root, selector="#files")["nodeId"]
        self.call("DOM.setFileInputFiles", files=list(paths), nodeId=node)
        self.until(state)

    def drop(self, *paths, state="ready"):
        self.busy()
        data = {"items": [], "files": list(paths), "dragOperationsMask": 1}
        for kind in ("dragEnter", "dragOver", "drop"):
            self.call("Input.dispatchDragEvent", type=kind, x=300, y=200, data=data)
        self.until(state)

    def key(self, name):
        values = {"key": name, "code": name, "windowsVirtualKeyCode": KEYS.get(name, 0)}
        letter = "\r" if name == "Enter" else name if len(name) == 1 else None
        text = {"text": letter} if letter else {}
        self.call("Input.dispatchKeyEvent", type="keyDown", **values, **text)
        self.call("Input.dispatchKeyEvent", type="keyUp", **values)

    def parts(self, role, name):
        """How many parts of the page have this role and name for a screen reader."""
        root = self.call("DOM.getDocument")["root"]["nodeId"]
        named = {"nodeId": root, "accessibleName": name, "role": role}
        nodes = self.call("Accessibility.queryAXTree", **named)["nodes"]
        return sum(not node["ignored"] for node in nodes)

    def look(self, width, height, scale=1):
        size = {"width": width, "height": height, "deviceScaleFactor": scale, "mobile": False}
        self.call("Emulation.setDeviceMetricsOverride", **size)

    def shot(self, path):
        with open(path, "wb") as file:
            file.write(base64.b64decode(self.call("Page.captureScreenshot", format="png")["data"]))

    def end(self):
        try:
            self.session = None
            self.call("Browser.close")
            self.process.wait(20)
        except (Ended, subprocess.TimeoutExpired, OSError):
            self.process.terminate()
            self.process.wait()
        # A shell takes descriptors of one digit alone.
        os.close(self.to)
        os.close(self.back)
        shutil.rmtree(self.folder, ignore_errors=True)
