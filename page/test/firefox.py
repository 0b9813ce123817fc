"""Firefox by WebDriver BiDi over a web socket of this machine."""
import base64
import json
import os
import shutil
import socket
import subprocess
import tempfile
import time

from browser import LIMIT, Browser, Ended, called

KEYS = {
    "Tab": "\ue004",
    "Enter": "\ue007",
    "Escape": "\ue00c",
    "PageUp": "\ue00e",
    "PageDown": "\ue00f",
    "End": "\ue010",
    "Home": "\ue011",
    "ArrowLeft": "\ue012",
    "ArrowUp": "\ue013",
    "ArrowRight": "\ue014",
    "ArrowDown": "\ue015",
}
# What the browser would ask of the network by itself.
QUIET = {
    "app.normandy.enabled": False,
    "app.update.enabled": False,
    "browser.safebrowsing.malware.enabled": False,
    "browser.safebrowsing.phishing.enabled": False,
    "browser.shell.checkDefaultBrowser": False,
    "browser.startup.page": 0,
    "datareporting.policy.dataSubmissionEnabled": False,
    "dom.push.connection.enabled": False,
    "network.captive-portal-service.enabled": False,
    "network.connectivity-service.enabled": False,
    "services.settings.server": "data:,",
    "toolkit.telemetry.enabled": False,
}
# How many seconds a start may take before another is tried.
START = 60
DARK = "layout.css.prefers-color-scheme.content-override"


class WebSocket:
    """The client's end of a web socket (RFC 6455)."""

    def __init__(self, port, path):
        self.socket = socket.create_connection(("127.0.0.1", port), timeout=START)
        key = base64.b64encode(os.urandom(16)).decode()
        head = [
            f"GET {path} HTTP/1.1",
            f"Host: 127.0.0.1:{port}",
            "Upgrade: websocket",
            "Connection: Upgrade",
            f"Sec-WebSocket-Key: {key}",
            "Sec-WebSocket-Version: 13",
        ]
        self.socket.sendall("".join(line + "\r\n" for line in [*head, ""]).encode())
        self.rest = b""
        while b"\r\n\r\n" not in self.rest:
            self.more()
        answer, self.rest = self.rest.split(b"\r\n\r\n", 1)
        if b" 101 " not in answer.split(b"\r\n")[0]:
            raise Ended(answer.decode())
        self.socket.settimeout(LIMIT)

    def more(self):
        piece = self.socket.recv(1 << 20)
        if not piece:
            raise Ended("firefox has ended")
        self.rest += piece

    def take(self, count):
        while len(self.rest) < count:
            self.more()
        found, self.rest = self.rest[:count], self.rest[count:]
        return found

    def send(self, text):
        data, mask = text.encode(), os.urandom(4)
        if len(data) < 126:
            size = bytes([0x80 | len(data)])
        elif len(data) < 65536:
            size = b"\xfe" + len(data).to_bytes(2, "big")
        else:
            size = b"\xff" + len(data).to_bytes(8, "big")
        long_mask = (mask * (len(data) // 4 + 1))[: len(data)]
        masked = int.from_bytes(data, "big") ^ int.from_bytes(long_mask, "big")
        self.socket.sendall(b"\x81" + size + mask + masked.to_bytes(len(data), "big"))

    def receive(self):
        """The next message, of one frame or more."""
        whole = b""
        while True:
            first, size = self.take(2)
            size &= 127
            if size >= 126:
                size = int.from_bytes(self.take(2 if size == 126 else 8), "big")
            data = self.take(size)
            if first & 15 == 8:
                raise Ended("firefox has closed")
            if first & 15 > 2:
                continue
            whole += data
            if first & 128:
                return whole.decode()


def free_port():
    with socket.socket() as found:
        found.bind(("127.0.0.1", 0))
        return found.getsockname()[1]


class Firefox(Browser):
    name = "firefox"

    def __init__(self, dark=False):
        self.folder = tempfile.mkdtemp(prefix="page-firefox-")
        with open(os.path.join(self.folder, "user.js"), "w", encoding="utf-8") as file:
            for name, value in {**QUIET, DARK: 0 if dark else 1}.items():
                file.write(f"user_pref({json.dumps(name)}, {json.dumps(value)});\n")
        self.number, self.messages, self.requests = 0, [], []
        self.socket = self.start() or self.start() or self.start()
        if not self.socket:
            raise Ended("firefox does not start")
        self.call("session.new", capabilities={})
        self.context = self.call("browsingContext.getTree")["contexts"][0]["context"]
        events = ["log.entryAdded", "network.beforeRequestSent"]
        self.call("session.subscribe", events=events)

    def start(self):
        """Starts the program, and returns the socket by which it is driven, or None."""
        program, port = shutil.which("firefox-esr") or "firefox", free_port()
        options = ["--headless", "--no-remote", "--remote-debugging-port", str(port)]
        self.process = subprocess.Popen(
            [program, *options, "--profile", self.folder],
            stdout=subprocess.DEVNULL,
            stderr=subprocess.DEVNULL,
            env={**os.environ, "HOME": self.folder},
        )
        end = time.time() + START
        while time.time() < end and self.process.poll() is None:
            try:
                return WebSocket(port, "/session")
            except (OSError, Ended):
                time.sleep(0.2)
        self.process.kill()
        self.process.wait()
        return None

    def call(self, method, **values):
        self.number += 1
        self.socket.send(json.dumps({"id": self.number, "method": method, "params": values}))
        while True:
            answer = json.loads(self.socket.receive())
            if answer.get("id") == self.number:
                if answer["type"] == "error":
                    raise AssertionError(f"firefox: {method}: {answer['message']}")
                return answer["result"]
            self.note(answer.get("method"), answer.get("params", {}))

    def note(self, event, values):
        if event == "log.entryAdded":
            self.messages.append(values["text"])
        elif event == "network.beforeRequestSent":
            self.note_request(values["request"]["url"])

    def open(self, address):
        self.call("browsingContext.navigate", context=self.context, url=address, wait="complete")
        self.opened()

    def js(self, script, *values):
        text = (
            f"(async () => {{ const found = await {called(script, values)};"
            " return found === undefined ? 'null' : JSON.stringify(found); })()"
        )
        where = {"context": self.context}
        found = self.call("script.evaluate", expression=text, target=where, awaitPromise=True)
        if found["type"] != "success":
            said = found["exceptionDetails"]["text"]
            raise AssertionError(f"firefox: {script[:200]}: {said}")
        return json.loads(found["result"]["value"])

    def give(self, *paths, state="ready"):
        self.busy()
        where = {"type": "css", "value": "#files"}
        found = self.call("browsingContext.locateNodes", context=self.context, locator=where)
        element = {"sharedId": found["nodes"][0]["sharedId"]}
        self.call("input.setFiles", context=self.context, element=element, files=list(paths))
        self.until(state)

    def drop(self, *paths, state="ready"):
        files = []
        for path in paths:
            with open(path, "rb") as file:
                text = base64.b64encode(file.read()).decode()
            files.append([os.path.basename(path), text, int(1000 * os.path.getmtime(path))])
        self.busy()
        self.js("look.drop(arguments[0])", files)
        self.until(state)

    def key(self, name):
        value = KEYS.get(name, name)
        actions = [{"type": kind, "value": value} for kind in ("keyDown", "keyUp")]
        keyboard = {"type": "key", "id": "keyboard", "actions": actions}
        self.call("input.performActions", context=self.context, actions=[keyboard])

    def parts(self, role, name):
        """How many parts of the page have this role and name for a screen reader."""
        where = {"type": "accessibility", "value": {"role": role, "name": name}}
        found = self.call("browsingContext.locateNodes", context=self.context, locator=where)
        return len(found["nodes"])

    def look(self, width, height, scale=1):
        size = {"width": width, "height": height}
        self.call(
            "browsingContext.setViewport",
            context=self.context,
            viewport=size,
            devicePixelRatio=scale,
        )

    def shot(self, path):
        found = self.call("browsingContext.captureScreenshot", context=self.context)
        with open(path, "wb") as file:
            file.write(base64.b64decode(found["data"]))

    def end(self):
        try:
            self.call("browser.close")
            self.process.wait(20)
        except (Ended, AssertionError, OSError, subprocess.TimeoutExpired):
            self.process.terminate()
            self.process.wait()
        self.socket.socket.close()
        shutil.rmtree(self.folder, ignore_errors=True)
