"""A headless Chromium, spoken to by its own protocol through a pair of pipes, so that nothing listens on a port.

Messages are objects of JSON, each with a byte 0 behind it. https://chromedevtools.github.io/devtools-protocol/ lists them.
"""
import fcntl
import json
import os
import shutil
import signal
import subprocess
import tempfile

NAMES = ("chromium", "chromium-browser", "google-chrome", "google-chrome-stable")
# Keys that aren't letters or digits, by the numbers that the protocol wants of them.
CODES = {"Home": 36, "ArrowLeft": 37, "ArrowRight": 39, "Tab": 9, "Enter": 13}


def found():
    """Returns the path of a Chromium, or None."""
    paths = [path for path in map(shutil.which, NAMES) if path]
    return paths[0] if paths else None


class Browser:
    """One window with one page. Its folder is removed when it is closed."""

    def __init__(self, width=1400, height=1000):
        self.room = tempfile.TemporaryDirectory(prefix="play-browser-", ignore_cleanup_errors=True)
        there, self.to = os.pipe()
        self.of, back = os.pipe()
        ends = [fcntl.fcntl(end, fcntl.F_DUPFD, 20) for end in (there, back)]
        words = [found(), "--headless=new", "--no-sandbox", "--disable-gpu", "--remote-debugging-pipe", f"--user-data-dir={self.room.name}",
                 "--no-first-run", "--disable-background-networking", "--disable-component-update", "--disable-sync", "about:blank"]
        command = ["bash", "-c", f'exec "$@" 3<&{ends[0]} 4>&{ends[1]}', "browser", *words]
        self.process = subprocess.Popen(command, pass_fds=ends, stdin=subprocess.DEVNULL, stdout=subprocess.DEVNULL, stderr=subprocess.DEVNULL,
                                        start_new_session=True)
        for end in (there, back, *ends):
            os.close(end)
        self.rest, self.last, self.session, self.events = b"", 0, None, []
        target = self.ask("Target.createTarget", url="about:blank")["targetId"]
        self.session = self.ask("Target.attachToTarget", targetId=target, flatten=True)["sessionId"]
        for domain in ("Page", "Runtime", "Network"):
            self.ask(f"{domain}.enable")
        self.size(width, height)

    def message(self):
        """Returns the next message of the browser."""
        while b"\0" not in self.rest:
            more = os.read(self.of, 1 << 20)
            if not more:
                raise RuntimeError("the browser has ended")
            self.rest += more
        line, self.rest = self.rest.split(b"\0", 1)
        return json.loads(line)

    def ask(self, method, **words):
        """Returns the answer to a command; what happens meanwhile is added to the events."""
        self.last += 1
        asked = {"id": self.last, "method": method, "params": words, **({"sessionId": self.session} if self.session else {})}
        os.write(self.to, json.dumps(asked).encode() + b"\0")
        while True:
            told = self.message()
            if told.get("id") == self.last:
                if "error" in told:
                    raise RuntimeError(f"{method}: {told['error']['message']}")
                return told["result"]
            self.events.append(told)

    def value(self, expression):
        """Returns what an expression of JavaScript is worth in the page."""
        told = self.ask("Runtime.evaluate", expression=expression, returnByValue=True, awaitPromise=True)
        if "exceptionDetails" in told:
            raise RuntimeError(f"{expression[:100]}: {told['exceptionDetails']['exception'].get('description')}")
        return told["result"].get("value")

    def size(self, width, height):
        self.ask("Emulation.setDeviceMetricsOverride", width=width, height=height, deviceScaleFactor=1, mobile=False)

    def colours(self, scheme, media=""):
        self.ask("Emulation.setEmulatedMedia", media=media, features=[{"name": "prefers-color-scheme", "value": scheme}])

    def open(self, address):
        """Opens a page, and waits until it is there."""
        for url in ("about:blank", address):
            self.events = []
            self.ask("Page.navigate", url=url)
            while not any(it.get("method") == "Page.loadEventFired" for it in self.events):
                self.events.append(self.message())

    def press(self, key):
        """Presses a key, as a keyboard would."""
        text = {"text": key} if len(key) == 1 else {"text": "\r"} if key == "Enter" else {}
        code = CODES.get(key, ord(key[0].upper()))
        self.ask("Input.dispatchKeyEvent", type="keyDown", key=key, windowsVirtualKeyCode=code, **text)
        self.ask("Input.dispatchKeyEvent", type="keyUp", key=key, windowsVirtualKeyCode=code)

    def close(self):
        os.close(self.to)
        try:
            self.process.wait(10)
        except subprocess.TimeoutExpired:
            os.killpg(self.process.pid, signal.SIGKILL)
            self.process.wait()
        os.close(self.of)
        self.room.cleanup()
