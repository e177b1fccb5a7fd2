"""A browser that does as it is told, by WebDriver, which is HTTP: Debian's chromium and chromium-driver, headless."""

import base64
import contextlib
import json
import os
import shutil
import subprocess
import sys
import time
import urllib.request

sys.path.append(f"{os.path.dirname(os.path.abspath(__file__))}/../scripts")
from served import LONGEST, connected, free_port

for program in ("chromium", "chromedriver"):
    if not shutil.which(program):
        sys.exit(f"there is no {program}: install chromium and chromium-driver")

ELEMENT = "element-6066-11e4-a52e-4f735466cecf"
KEYS = {"Tab": "\ue004", "Enter": "\ue007", "Shift": "\ue008", "Left": "\ue012", "Up": "\ue013", "Right": "\ue014"}


class Browser:
    def __init__(self, width=1440, height=900):
        self.port = free_port()
        silent = {"stdout": subprocess.DEVNULL, "stderr": subprocess.DEVNULL}
        self.driver = subprocess.Popen(["chromedriver", f"--port={self.port}"], **silent)
        connected(self.port, self.driver).close()
        words = ["--headless=new", "--no-sandbox", "--disable-gpu", "--hide-scrollbars", "--no-proxy-server"]
        options = {"args": [*words, f"--window-size={width},{height}"]}
        made = self.send("/session", {"capabilities": {"alwaysMatch": {"goog:chromeOptions": options}}})
        self.base = f"/session/{made['sessionId']}"

    def send(self, path, body=None, method=None):
        data = None if body is None else json.dumps(body).encode()
        head = {"Content-Type": "application/json"}
        request = urllib.request.Request(f"http://127.0.0.1:{self.port}{path}", data, head, method=method)
        try:
            with urllib.request.urlopen(request, timeout=300) as reply:
                return json.loads(reply.read())["value"]
        except urllib.error.HTTPError as fault:
            raise AssertionError(json.loads(fault.read())["value"]["message"]) from fault

    def close(self):
        with contextlib.suppress(Exception):
            self.send(self.base, method="DELETE")
        self.driver.terminate()
        self.driver.wait(LONGEST)

    @contextlib.contextmanager
    def another_tab(self):
        """A tab that is closed afterwards."""
        first = self.send(f"{self.base}/window")
        made = self.send(f"{self.base}/window/new", {"type": "tab"})["handle"]
        self.send(f"{self.base}/window", {"handle": made})
        try:
            yield
        finally:
            self.send(f"{self.base}/window", method="DELETE")
            self.send(f"{self.base}/window", {"handle": first})

    # Pages

    def go(self, url):
        self.send(f"{self.base}/url", {"url": "about:blank"})
        self.send(f"{self.base}/url", {"url": url})

    def run(self, script, *args):
        return self.send(f"{self.base}/execute/sync", {"script": script, "args": list(args)})

    def run_async(self, script, *args):
        """What the script gives to its last argument, a function."""
        return self.send(f"{self.base}/execute/async", {"script": script, "args": list(args)})

    def wait(self, script, *args, seconds=LONGEST):
        """What a script gives once it gives something true."""
        end = time.monotonic() + seconds
        while time.monotonic() < end:
            if found := self.run(script, *args):
                return found
            time.sleep(0.05)
        raise AssertionError(f"never {script} {args}; told: {self.text('#told')!r}")

    def text(self, css):
        return self.run("return document.querySelector(arguments[0]).textContent", css)

    def property(self, css, name):
        return self.run("return document.querySelector(arguments[0])[arguments[1]]", css, name)

    # A person's acts

    def element(self, css):
        return self.send(f"{self.base}/element", {"using": "css selector", "value": css})[ELEMENT]

    def click(self, css):
        self.send(f"{self.base}/element/{self.element(css)}/click", {})

    def choose(self, css, label):
        """An option of a select, by its label."""
        self.run(
            "const it = document.querySelector(arguments[0]);"
            " it.selectedIndex = [...it.options].findIndex(o => o.text.startsWith(arguments[1]));"
            " it.dispatchEvent(new Event('change'))",
            css,
            label,
        )

    def act(self, *sources):
        self.send(f"{self.base}/actions", {"actions": list(sources)})

    def press(self, *keys, hold=None):
        acts = [{"type": kind, "value": KEYS.get(key, key)} for key in keys for kind in ("keyDown", "keyUp")]
        if hold:
            held = KEYS.get(hold, hold)
            acts = [{"type": "keyDown", "value": held}, *acts, {"type": "keyUp", "value": held}]
        self.act({"type": "key", "id": "keys", "actions": acts})

    def mouse(self, *acts):
        self.act({"type": "pointer", "id": "mouse", "parameters": {"pointerType": "mouse"}, "actions": list(acts)})

    def move(self, x, y):
        self.mouse({"type": "pointerMove", "x": int(x), "y": int(y)})

    def drag(self, x, y, to_x, to_y):
        down, up = {"type": "pointerDown", "button": 0}, {"type": "pointerUp", "button": 0}
        moves = [{"type": "pointerMove", "x": int(a), "y": int(b)} for a, b in [(x, y), (to_x, to_y)]]
        self.mouse(moves[0], down, moves[1], up)

    def pinch(self, x, y, before, after):
        """Two fingers, so many dots apart on a line, that move to be so many apart."""
        fingers = []
        for side in (-1, 1):
            moves = [{"type": "pointerMove", "x": int(x + side * it / 2), "y": int(y)} for it in (before, after)]
            acts = [moves[0], {"type": "pointerDown", "button": 0}, moves[1], {"type": "pointerUp", "button": 0}]
            kind = {"pointerType": "touch"}
            fingers.append({"type": "pointer", "id": f"finger{side}", "parameters": kind, "actions": acts})
        self.act(*fingers)

    def wheel(self, x, y, delta):
        act = {"type": "scroll", "x": int(x), "y": int(y), "deltaX": 0, "deltaY": delta}
        self.act({"type": "wheel", "id": "wheel", "actions": [act]})

    # How it looks

    def devtools(self, command, **words):
        return self.send(f"{self.base}/goog/cdp/execute", {"cmd": command, "params": words})

    def screen(self, width, height, dark=False, phone=False):
        self.devtools(
            "Emulation.setDeviceMetricsOverride", width=width, height=height, deviceScaleFactor=1, mobile=phone
        )
        scheme = {"name": "prefers-color-scheme", "value": "dark" if dark else "light"}
        self.devtools("Emulation.setEmulatedMedia", features=[scheme])

    def shot(self, path, width, height, scale=1):
        clip = {"x": 0, "y": 0, "width": width, "height": height, "scale": scale}
        found = self.devtools("Page.captureScreenshot", format="png", clip=clip, captureBeyondViewport=True)
        with open(path, "wb") as file:
            file.write(base64.b64decode(found["data"]))
