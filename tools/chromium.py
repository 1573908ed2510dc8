"""Drives a page in headless Chromium by its debugging pipe: runs scripts, presses keys, and keeps what is seen."""
import base64
import fcntl
import json
import os
import select
import shutil
import subprocess
import tempfile

SECONDS = 300  # for which an answer is waited for


def found():
    """Returns the browser's path, or None where there is none."""
    return shutil.which("chromium") or shutil.which("chromium-browser") or shutil.which("google-chrome")


class Page:
    """Opens a page in a browser of its own, for a `with`."""

    def __init__(self, address, width=1280, height=900, is_dark=False, scale=1, is_mobile=False):
        self.folder = tempfile.mkdtemp(prefix="pigale-page-")
        from_us, self.to = os.pipe()
        self.back, to_us = os.pipe()
        given = [fcntl.fcntl(it, fcntl.F_DUPFD, 64) for it in (from_us, to_us)]

        def place():
            os.dup2(given[0], 3)
            os.dup2(given[1], 4)

        words = [found(), "--headless=new", "--remote-debugging-pipe", f"--user-data-dir={self.folder}", "--no-first-run",
                 "--disable-gpu", "--disable-background-networking", "--disable-dev-shm-usage", "--hide-scrollbars",
                 *["--no-sandbox"] * (os.geteuid() == 0), "about:blank"]
        self.process = subprocess.Popen(words, preexec_fn=place, pass_fds=(3, 4), stdin=subprocess.DEVNULL,
                                        stdout=subprocess.DEVNULL, stderr=subprocess.DEVNULL)
        for it in (from_us, to_us, *given):
            os.close(it)
        self.kept, self.number, self.session, self.events = b"", 0, None, []
        target = next(it for it in self.ask("Target.getTargets")["targetInfos"] if it["type"] == "page")
        self.session = self.ask("Target.attachToTarget", targetId=target["targetId"], flatten=True)["sessionId"]
        for it in ("Page", "Runtime", "Network", "Log"):
            self.ask(f"{it}.enable")
        self.ask("Emulation.setDeviceMetricsOverride", width=width, height=height, deviceScaleFactor=scale,
                 mobile=is_mobile)
        scheme = {"name": "prefers-color-scheme", "value": "dark" if is_dark else "light"}
        self.ask("Emulation.setEmulatedMedia", features=[scheme])
        self.ask("Page.navigate", url=address)

    def __enter__(self):
        return self

    def __exit__(self, *_):
        try:
            self.session = None
            self.ask("Browser.close")
        except (OSError, EOFError):
            pass
        os.close(self.to)
        os.close(self.back)
        try:
            self.process.wait(10)
        except subprocess.TimeoutExpired:
            self.process.kill()
            self.process.wait()
        shutil.rmtree(self.folder, ignore_errors=True)

    def ask(self, method, **given):
        """Returns what the browser answers to a command, and keeps the events that come meanwhile."""
        self.number += 1
        asked = {"id": self.number, "method": method, "params": given}
        if self.session:
            asked["sessionId"] = self.session
        data = json.dumps(asked).encode() + b"\0"
        while data:
            data = data[os.write(self.to, data):]
        while True:
            said = self._next()
            if said.get("id") == self.number:
                if "error" in said:
                    raise RuntimeError(f"{method}: {said['error'].get('message')}")
                return said["result"]
            self.events.append(said)

    def _next(self):
        while b"\0" not in self.kept:
            is_ready, _, _ = select.select([self.back], [], [], SECONDS)
            more = os.read(self.back, 1 << 20) if is_ready else b""
            if not more:
                raise EOFError("the browser ended, or says nothing")
            self.kept += more
        said, _, self.kept = self.kept.partition(b"\0")
        return json.loads(said)

    def run(self, script):
        """Returns the value of a script in the page, which may be a promise."""
        said = self.ask("Runtime.evaluate", expression=script, awaitPromise=True, returnByValue=True)
        if "exceptionDetails" in said:
            fault = said["exceptionDetails"]
            raise RuntimeError(fault.get("exception", {}).get("description") or fault.get("text"))
        return said["result"].get("value")

    def wait(self, condition, seconds=60):
        """Waits until a script's value is true."""
        script = f"""new Promise((done, failed) => {{
            const end = Date.now() + {1000 * seconds};
            const look = () => ({condition}) ? done(true) : Date.now() > end ? failed(new Error("it did not come")) : setTimeout(look, 20);
            look();
        }})"""
        return self.run(script)

    def give(self, selector, path):
        """Gives a file to a field for files."""
        root = self.ask("DOM.getDocument")["root"]["nodeId"]
        node = self.ask("DOM.querySelector", nodeId=root, selector=selector)["nodeId"]
        self.ask("DOM.setFileInputFiles", files=[path], nodeId=node)

    def press(self, key, code=None, text=""):
        """Presses a key, and lets it go."""
        numbers = {"Tab": 9, "Enter": 13, " ": 32, "Escape": 27, "ArrowRight": 39, "ArrowLeft": 37}
        given = {"key": key, "code": code or key, "windowsVirtualKeyCode": numbers.get(key, ord(key[0].upper()))}
        if key == "Enter":
            text = "\r"
        self.ask("Input.dispatchKeyEvent", type="keyDown", text=text or (key if len(key) == 1 else ""), **given)
        self.ask("Input.dispatchKeyEvent", type="keyUp", **given)

    def mouse(self, kind, x, y):
        """Moves the mouse to a place of the window, or presses or lets go its button there."""
        given = {"button": "left", "clickCount": 1} if kind != "mouseMoved" else {}
        self.ask("Input.dispatchMouseEvent", type=kind, x=x, y=y, **given)

    def click(self, x, y):
        """Clicks at a place of the window."""
        for kind in ("mouseMoved", "mousePressed", "mouseReleased"):
            self.mouse(kind, x, y)

    def shot(self, path, is_whole=False):
        """Keeps what is seen, or the whole page, as a PNG file."""
        said = self.ask("Page.captureScreenshot", format="png", captureBeyondViewport=is_whole,
                        **({"clip": {**self._size(), "x": 0, "y": 0, "scale": 1}} if is_whole else {}))
        with open(path, "wb") as file:
            file.write(base64.b64decode(said["data"]))

    def _size(self):
        size = self.ask("Page.getLayoutMetrics")["cssContentSize"]
        return {"width": size["width"], "height": size["height"]}
