"""Drives a page in headless Firefox by its remote protocol, on this machine alone: runs scripts, and keeps what is seen."""
import base64
import json
import os
import shutil
import socket
import subprocess
import tempfile
import time

SECONDS = 60  # for which an answer is waited for


def found():
    """Returns the browser's path, or None where there is none."""
    return shutil.which("firefox") or shutil.which("firefox-esr")


class Page:
    """Opens a page in a browser of its own, for a `with`."""

    def __init__(self, address, width=1280, height=900):
        self.folder = tempfile.mkdtemp(prefix="pigale-page-")
        with socket.socket() as free:
            free.bind(("127.0.0.1", 0))
            port = free.getsockname()[1]
        with open(f"{self.folder}/user.js", "w", encoding="utf-8") as file:
            file.write(f'user_pref("marionette.port", {port});\n')
        words = [found(), "--headless", "--marionette", "--no-remote", "--profile", self.folder,
                 f"--width={width}", f"--height={height}"]
        quiet = {"stdin": subprocess.DEVNULL, "stdout": subprocess.DEVNULL, "stderr": subprocess.DEVNULL}
        self.process = subprocess.Popen(words, env={**os.environ, "HOME": self.folder}, **quiet)
        self.socket, self.number = self._joined(port), 0
        self._next()
        self.ask("WebDriver:NewSession", capabilities={"alwaysMatch": {"acceptInsecureCerts": True}})
        self.ask("WebDriver:Navigate", url=address)

    def _joined(self, port):
        end = time.time() + SECONDS
        while True:
            try:
                return socket.create_connection(("127.0.0.1", port), SECONDS)
            except OSError:
                if time.time() > end or self.process.poll() is not None:
                    self.__exit__()
                    raise
                time.sleep(0.2)

    def __enter__(self):
        return self

    def __exit__(self, *_):
        if hasattr(self, "socket"):
            self.socket.close()
        self.process.terminate()
        try:
            self.process.wait(10)
        except subprocess.TimeoutExpired:
            self.process.kill()
            self.process.wait()
        shutil.rmtree(self.folder, ignore_errors=True)

    def _next(self):
        """Returns the next message: its length in digits, a colon, and so many bytes of JSON."""
        digits = b""
        while not digits.endswith(b":"):
            more = self.socket.recv(1)
            if not more:
                raise EOFError("the browser ended")
            digits += more
        data = b""
        while len(data) < int(digits[:-1]):
            data += self.socket.recv(int(digits[:-1]) - len(data))
        return json.loads(data)

    def ask(self, command, **given):
        """Returns what the browser answers to a command."""
        self.number += 1
        data = json.dumps([0, self.number, command, given]).encode()
        self.socket.sendall(f"{len(data)}:".encode() + data)
        _, _, fault, result = self._next()
        if fault:
            raise RuntimeError(f"{command}: {fault.get('message')}")
        return result

    def run(self, script):
        """Returns the value of a script in the page, which may be a promise."""
        # the page forbids eval and lets scripts in it, so the script is put into it and leaves its value there
        plain = f"""(async () => ({script}))().then((value) => ({{ value }}), (fault) => ({{ fault: String(fault) }}))
            .then((said) => (document.documentElement.dataset.said = JSON.stringify(said)));"""
        wrapped = f"""const [done] = arguments;
            const element = document.createElement("script");
            element.textContent = {json.dumps(plain)};
            delete document.documentElement.dataset.said;
            document.head.append(element);
            element.remove();
            const said = document.documentElement.dataset;
            const look = () => said.said ? done(said.said) : setTimeout(look, 5);
            look();"""
        asked = {"script": wrapped, "args": [], "scriptTimeout": SECONDS * 1000}
        said = json.loads(self.ask("WebDriver:ExecuteAsyncScript", **asked)["value"])
        if "fault" in said:
            raise RuntimeError(said["fault"])
        return said.get("value")

    def wait(self, condition, seconds=SECONDS):
        """Waits until a script's value is true."""
        end = time.time() + seconds
        while not self.run(f"Boolean({condition})"):
            if time.time() > end:
                raise RuntimeError("it did not come")
            time.sleep(0.05)

    def shot(self, path):
        """Keeps what is seen as a PNG file."""
        with open(path, "wb") as file:
            file.write(base64.b64decode(self.ask("WebDriver:TakeScreenshot", full=False)["value"]))
