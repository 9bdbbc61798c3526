"""Headless Chromium, which is asked over pipes."""
import json
import os
import shutil
import subprocess
import tempfile

# Debian calls it chromium, and others one of these.
NAMES = ("chromium", "chromium-browser", "google-chrome")
WORDS = ["--headless", "--no-sandbox", "--disable-gpu", "--disable-dev-shm-usage", "--hide-scrollbars", "--remote-debugging-pipe", "about:blank"]


def program():
    """The browser of this machine; None where there is none."""
    return next(filter(None, map(shutil.which, NAMES)), None)


class Browser:
    """A running browser with one page."""

    def __enter__(self):
        self.room = tempfile.TemporaryDirectory()
        (theirs_in, self.asked), (self.told, theirs_out) = os.pipe(), os.pipe()
        words = ["bash", "-c", f'exec "$@" 3<&{theirs_in} 4>&{theirs_out}', "bash", program(), f"--user-data-dir={self.room.name}", *WORDS]
        self.ran = subprocess.Popen(words, pass_fds=(theirs_in, theirs_out), stdin=subprocess.DEVNULL, stdout=subprocess.DEVNULL,
                                    stderr=subprocess.DEVNULL)
        os.close(theirs_in), os.close(theirs_out)
        self.number, self.behind, self.page = 0, b"", None
        target = next(it for it in self.ask("Target.getTargets")["targetInfos"] if it["type"] == "page")
        self.page = self.ask("Target.attachToTarget", targetId=target["targetId"], flatten=True)["sessionId"]
        self.ask("Page.enable")
        return self

    def __exit__(self, *_):
        os.close(self.asked)
        try:
            self.ran.wait(20)
        except subprocess.TimeoutExpired:
            self.ran.kill()
            self.ran.wait()
        os.close(self.told)
        self.room.cleanup()

    def message(self):
        """The next message."""
        while b"\0" not in self.behind:
            more = os.read(self.told, 1 << 16)
            if not more:
                raise OSError("the browser has ended")
            self.behind += more
        text, _, self.behind = self.behind.partition(b"\0")
        return json.loads(text)

    def ask(self, method, **more):
        """What the browser answers."""
        self.number += 1
        asked = {"id": self.number, "method": method, "params": more, **({"sessionId": self.page} if self.page else {})}
        os.write(self.asked, json.dumps(asked).encode() + b"\0")
        while True:
            told = self.message()
            if told.get("id") == self.number:
                if "error" in told:
                    raise OSError(f"{method}: {told['error']}")
                return told["result"]

    def open(self, path, wide=1000, high=1400):
        """Opens a page, and waits until it is there."""
        self.ask("Emulation.setDeviceMetricsOverride", width=wide, height=high, deviceScaleFactor=1, mobile=False)
        self.ask("Page.navigate", url=f"file://{path}")
        while self.message().get("method") != "Page.loadEventFired":
            pass

    def value(self, script):
        """What a script of the page comes to, also where it is promised."""
        told = self.ask("Runtime.evaluate", expression=script, awaitPromise=True, returnByValue=True)
        if "exceptionDetails" in told:
            raise OSError(str(told["exceptionDetails"]))
        return told["result"].get("value")
