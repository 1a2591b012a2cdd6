"""Drives a page in a headless Firefox by its Marionette protocol, over a socket and by Python's own library."""
import json
import math
import os
import shutil
import socket
import subprocess
import tempfile
import time

from headless import Headless

# The protocol's own signs of keys.
KEYS = {"Enter": "\ue007", "Shift": "\ue008", "ArrowLeft": "\ue012", "ArrowUp": "\ue013", "ArrowRight": "\ue014",
        "ArrowDown": "\ue015", "Delete": "\ue017"}


def free_port():
    with socket.socket() as it:
        it.bind(("127.0.0.1", 0))
        return it.getsockname()[1]


class Firefox(Headless):
    def __init__(self, page, width=1300, height=1000):
        program = shutil.which("firefox-esr") or shutil.which("firefox")
        if not program:
            raise SystemExit("firefox: it isn't there: apt-get install firefox-esr")
        self.profile, port = tempfile.TemporaryDirectory(prefix="layers-page-"), free_port()
        with open(f"{self.profile.name}/user.js", "w", encoding="utf-8") as file:
            file.write(f'user_pref("marionette.port", {port});\n')
        words = [program, "--headless", "--marionette", "--no-remote", "--profile", self.profile.name]
        self.process = subprocess.Popen(words, stdout=subprocess.DEVNULL, stderr=subprocess.DEVNULL)
        self.number, self.rest = 0, b""
        self.socket = self.connected(port)
        self.message()
        self.ask("WebDriver:NewSession")
        self.ask("WebDriver:SetWindowRect", width=width, height=height)
        self.page = f"file://{os.path.abspath(page)}"
        self.ask("WebDriver:Navigate", url=self.page)

    def connected(self, port):
        for _ in range(300):
            try:
                return socket.create_connection(("127.0.0.1", port))
            except OSError:
                time.sleep(0.1)
        raise SystemExit("firefox: it didn't start")

    def message(self):
        """The next message: its length, a colon and as many bytes."""
        while True:
            length, colon, rest = self.rest.partition(b":")
            if colon and len(rest) >= int(length):
                self.rest = rest[int(length):]
                return json.loads(rest[:int(length)])
            read = self.socket.recv(1 << 20)
            if not read:
                raise SystemExit("firefox: it ended")
            self.rest += read

    def ask(self, method, **parameters):
        self.number += 1
        said = json.dumps([0, self.number, method, parameters]).encode()
        self.socket.sendall(b"%d:%s" % (len(said), said))
        _, _, error, result = self.message()
        if error:
            raise SystemExit(f"firefox: {method}: {error.get('message')}")
        return result

    def run(self, expression):
        """What a JavaScript expression of the page gives, once its promise is kept."""
        script = "const done = arguments[arguments.length - 1];" \
            "Promise.resolve(window.eval(arguments[0])).then(it => done(JSON.stringify(it)))"
        told = self.ask("WebDriver:ExecuteAsyncScript", script=script, args=[expression])["value"]
        return None if told is None else json.loads(told)

    def mouse(self, kind, x, y, clicks=1):
        step = {"mousePressed": "pointerDown", "mouseReleased": "pointerUp"}.get(kind)
        # (whole numbers, as this protocol has them, in the same pixel)
        steps = [{"type": "pointerMove", "x": math.ceil(x - 0.5), "y": math.ceil(y - 0.5), "duration": 0}]
        steps += [{"type": step, "button": 0}] * bool(step)
        self.ask("WebDriver:PerformActions", actions=[{"type": "pointer", "id": "mouse", "actions": steps}])

    def key(self, key, shift=False):
        value = KEYS.get(key, key)
        presses = [{"type": it, "value": value} for it in ("keyDown", "keyUp")]
        held = [{"type": it, "value": KEYS["Shift"]} for it in ("keyDown", "keyUp")] if shift else []
        actions = [*held[:1], *presses, *held[1:]]
        self.ask("WebDriver:PerformActions", actions=[{"type": "key", "id": "keys", "actions": actions}])

    def resize(self, width, height):
        """Has the page anew at this width, which may be less than a window's: it is that of a frame in the window."""
        path = f"{self.profile.name}/framed.html"
        with open(path, "w", encoding="utf-8") as file:
            file.write(f'<body style="margin: 0"><iframe src="{self.page}" width="{width}" height="{height}" frameborder="0">')
        self.ask("WebDriver:SwitchToFrame", id=None)
        self.ask("WebDriver:SetWindowRect", width=max(width, 500), height=height + 100)
        self.ask("WebDriver:Navigate", url=f"file://{path}")
        self.ask("WebDriver:SwitchToFrame", id=0)

    def shot(self):
        return self.ask("WebDriver:TakeScreenshot", full=False)["value"]
