"""A browser without a window, told what to do by Chromium's protocol over two pipes."""
import base64
import fcntl
import json
import os
import shutil
import subprocess

PROGRAM = shutil.which("chromium")
# how long a command may take, in seconds
MOST_SECONDS = 120


class Browser:
    """One page of a browser; `errors` has what came on its console, and `fetched` the addresses that it asked for."""

    def __init__(self, folder):
        ends = [fcntl.fcntl(end, fcntl.F_DUPFD, 10) for end in (*os.pipe(), *os.pipe())]

        def streams():
            os.dup2(ends[0], 3)
            os.dup2(ends[3], 4)

        self.process = subprocess.Popen(
            [PROGRAM, "--headless", "--no-sandbox", "--disable-gpu", "--disable-dev-shm-usage", f"--user-data-dir={folder}", "--remote-debugging-pipe"],
            preexec_fn=streams, close_fds=False, stdin=subprocess.DEVNULL, stdout=subprocess.DEVNULL, stderr=subprocess.DEVNULL,
        )
        os.close(ends[0])
        os.close(ends[3])
        self.to, self.of = os.fdopen(ends[1], "wb"), os.fdopen(ends[2], "rb")
        self.rest, self.number, self.session = b"", 0, None
        self.errors, self.fetched, self.events = [], [], []
        target = self.tell("Target.createTarget", url="about:blank")["targetId"]
        self.session = self.tell("Target.attachToTarget", targetId=target, flatten=True)["sessionId"]
        for domain in ("Page", "Runtime", "Log", "Network", "Accessibility"):
            self.tell(f"{domain}.enable")

    def close(self):
        self.session = None
        self.tell("Browser.close")
        self.process.wait(MOST_SECONDS)
        self.to.close()
        self.of.close()

    def message(self):
        while b"\0" not in self.rest:
            data = os.read(self.of.fileno(), 1 << 16)
            if not data:
                raise EOFError("the browser ended")
            self.rest += data
        line, _, self.rest = self.rest.partition(b"\0")
        return json.loads(line)

    def tell(self, method, **params):
        """Sends a command; its result."""
        self.number += 1
        sent = {"id": self.number, "method": method, "params": params, **({"sessionId": self.session} if self.session else {})}
        self.to.write(json.dumps(sent).encode() + b"\0")
        self.to.flush()
        while True:
            got = self.message()
            if got.get("id") == self.number:
                if "error" in got:
                    raise RuntimeError(f"{method}: {got['error']['message']}")
                return got["result"]
            self.take(got)

    def take(self, event):
        name, its = event.get("method"), event.get("params", {})
        self.events.append(name)
        if name == "Runtime.exceptionThrown":
            self.errors.append(its["exceptionDetails"]["text"])
        elif name == "Runtime.consoleAPICalled":
            self.errors.append(str(its["args"]))
        elif name == "Log.entryAdded":
            self.errors.append(its["entry"]["text"])
        elif name == "Network.requestWillBeSent":
            self.fetched.append(its["request"]["url"])

    def open(self, path, width, dark=False):
        """Loads a page in a window of a width."""
        self.tell("Emulation.setDeviceMetricsOverride", width=width, height=900, deviceScaleFactor=1, mobile=width < 600)
        self.tell("Emulation.setEmulatedMedia", features=[{"name": "prefers-color-scheme", "value": "dark" if dark else "light"}])
        self.events.clear()
        self.tell("Page.navigate", url=f"file://{path}")
        while "Page.loadEventFired" not in self.events:
            self.take(self.message())

    def value(self, script):
        """The value of an expression in the page."""
        found = self.tell("Runtime.evaluate", expression=script, returnByValue=True)
        if "exceptionDetails" in found:
            raise RuntimeError(found["exceptionDetails"]["exception"].get("description", script))
        return found["result"].get("value")

    def picture(self, path):
        """The whole page as PNG."""
        with open(path, "wb") as file:
            file.write(base64.b64decode(self.tell("Page.captureScreenshot", captureBeyondViewport=True)["data"]))

    def printed(self, path):
        """The page as it is printed, as PDF."""
        with open(path, "wb") as file:
            file.write(base64.b64decode(self.tell("Page.printToPDF", printBackground=False)["data"]))

    def roles(self):
        """The nodes that a screen reader is told, as pairs of a role and a name."""
        nodes = self.tell("Accessibility.getFullAXTree")["nodes"]
        return [(it["role"]["value"], it.get("name", {}).get("value", "")) for it in nodes if not it.get("ignored") and "role" in it]
