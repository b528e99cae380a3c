"""A browser without a window for the tests: chromium, driven by chromedriver over HTTP (W3C WebDriver)."""

import base64
import json
import re
import shutil
import subprocess
import tempfile
import urllib.request

MISSING = [name for name in ("chromium", "chromedriver") if not shutil.which(name)]
WORDS = ["--headless=new", "--no-sandbox", "--disable-gpu", "--disable-dev-shm-usage", "--window-size=1200,900",
         "--hide-scrollbars"]
KEYS = {"ArrowLeft": "\ue012", "ArrowRight": "\ue014", "Enter": "\ue007"}
STARTED = re.compile(r"was started successfully on port (\d+)")
TRIES = 5


def started():
    """A driver, and its port. Another program may have taken the port that it picked as it binds it: so it has some tries."""
    for _ in range(TRIES):
        driver = subprocess.Popen(["chromedriver", "--port=0"], stdout=subprocess.PIPE, text=True)
        found = next(filter(None, map(STARTED.search, driver.stdout)), None)
        if found:
            return driver, found[1]
        driver.wait()
        driver.stdout.close()
    raise AssertionError("chromedriver doesn't start")


class Browser:
    """One page in a browser of its own. `close` ends it."""

    def __init__(self):
        self.profile = tempfile.TemporaryDirectory(ignore_cleanup_errors=True)
        self.driver, port = started()
        self.root = f"http://127.0.0.1:{port}/session"
        options = {"args": [*WORDS, f"--user-data-dir={self.profile.name}"]}
        made = self.ask("", {"capabilities": {"alwaysMatch": {"goog:chromeOptions": options}}})
        self.root += "/" + made["sessionId"]

    def ask(self, path, content=None, method=None):
        """What the driver answers to a command."""
        data = None if content is None else json.dumps(content).encode()
        asked = urllib.request.Request(self.root + path, data, {"Content-Type": "application/json"}, method=method)
        with urllib.request.urlopen(asked, timeout=120) as answer:
            return json.load(answer)["value"]

    def close(self):
        try:
            self.ask("", method="DELETE")
        finally:
            self.driver.terminate()
            self.driver.wait()
            self.driver.stdout.close()
            self.profile.cleanup()

    def open(self, path):
        """Loads a page anew, also where only the event behind its # is another one."""
        for address in ("about:blank", f"file://{path}"):
            self.ask("/url", {"url": address})

    def run(self, script, *values):
        """What a script returns that runs in the page."""
        return self.ask("/execute/sync", {"script": script, "args": list(values)})

    def wait(self, script, *values):
        """What a script of the page hands to `done`, its last argument."""
        return self.ask("/execute/async", {"script": f"const done = arguments[arguments.length - 1]; {script}",
                                           "args": list(values)})

    def move(self, left, top, click=False):
        """Moves the mouse to a place of the window, and clicks there."""
        steps = [{"type": "pointerMove", "duration": 0, "x": int(left), "y": int(top)}]
        if click:
            steps += [{"type": "pointerDown", "button": 0}, {"type": "pointerUp", "button": 0}]
        self.ask("/actions", {"actions": [{"type": "pointer", "id": "mouse", "actions": steps}]})

    def type(self, *keys):
        """Presses keys: names of KEYS, or letters."""
        steps = [{"type": kind, "value": KEYS.get(key, key)} for key in keys for kind in ("keyDown", "keyUp")]
        self.ask("/actions", {"actions": [{"type": "key", "id": "keyboard", "actions": steps}]})

    def screenshot(self, path):
        with open(path, "wb") as file:
            file.write(base64.b64decode(self.ask("/screenshot")))
