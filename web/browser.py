"""Drives a page in a headless Chromium over the DevTools protocol, by two pipes and Python's own library."""
import json
import os
import select
import shutil
import subprocess
import tempfile

from headless import Headless

# (the sandbox can't start as root in a container; the page is this repository's own)
FLAGS = ["--headless", "--no-sandbox", "--disable-gpu", "--no-first-run", "--remote-debugging-pipe", "--disable-dev-shm-usage"]

SECONDS = 120


class Browser(Headless):
    def __init__(self, page, width=1300, height=1000):
        program = shutil.which("chromium") or shutil.which("chromium-browser") or shutil.which("google-chrome")
        if not program:
            raise SystemExit("browser: chromium isn't there: apt-get install chromium")
        self.profile = tempfile.TemporaryDirectory(prefix="layers-page-")
        theirs, self.to = os.pipe()
        self.back, ours = os.pipe()
        # The protocol has its commands on the descriptor 3, and its answers on 4.
        words = ["sh", "-c", f'exec "$@" 3<&{theirs} 4>&{ours}', "sh", program, *FLAGS]
        words += [f"--user-data-dir={self.profile.name}", f"--window-size={width},{height}", "about:blank"]
        how = {"stdout": subprocess.DEVNULL, "stderr": subprocess.DEVNULL, "pass_fds": (theirs, ours)}
        self.process = subprocess.Popen(words, **how)
        os.close(theirs)
        os.close(ours)
        self.number, self.rest = 0, b""
        target = self.ask("Target.getTargets", tab=None)["targetInfos"]
        first = next(it for it in target if it["type"] == "page")["targetId"]
        self.tab = self.ask("Target.attachToTarget", tab=None, targetId=first, flatten=True)["sessionId"]
        self.ask("Page.enable")
        self.resize(width, height)
        self.ask("Page.navigate", url=f"file://{os.path.abspath(page)}")

    def message(self):
        while b"\0" not in self.rest:
            if not select.select([self.back], [], [], SECONDS)[0]:
                raise SystemExit(f"browser: chromium gave no answer for {SECONDS} seconds")
            read = os.read(self.back, 1 << 20)
            if not read:
                raise SystemExit("browser: chromium ended")
            self.rest += read
        message, _, self.rest = self.rest.partition(b"\0")
        return json.loads(message)

    def ask(self, method, tab="own", **parameters):
        self.number += 1
        said = {"id": self.number, "method": method, "params": parameters}
        if tab:
            said["sessionId"] = self.tab
        os.write(self.to, json.dumps(said).encode() + b"\0")
        while True:
            answer = self.message()
            if answer.get("id") == self.number:
                if "error" in answer:
                    raise SystemExit(f"browser: {method}: {answer['error']}")
                return answer["result"]

    def run(self, expression):
        """What a JavaScript expression gives, once its promise is kept."""
        answer = self.ask("Runtime.evaluate", expression=expression, awaitPromise=True, returnByValue=True)
        if "exceptionDetails" in answer:
            raise SystemExit(f"browser: {expression[:80]}: {answer['exceptionDetails']}")
        return answer["result"].get("value")

    def mouse(self, kind, x, y, clicks=1):
        held = {"button": "left", "buttons": 0 if kind == "mouseReleased" else 1, "clickCount": clicks}
        self.ask("Input.dispatchMouseEvent", type=kind, x=x, y=y, **held)

    def key(self, key, shift=False):
        text = {"text": key} if len(key) == 1 else {}
        for kind in ("keyDown", "keyUp"):
            self.ask("Input.dispatchKeyEvent", type=kind, key=key, modifiers=8 * shift, **(text if kind == "keyDown" else {}))

    def resize(self, width, height):
        self.ask("Emulation.setDeviceMetricsOverride", width=width, height=height, deviceScaleFactor=1, mobile=False)

    def shot(self):
        return self.ask("Page.captureScreenshot", format="png")["data"]
