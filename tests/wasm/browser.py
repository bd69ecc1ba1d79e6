#!/usr/bin/env python3
"""Opens a page in a browser without a screen, waits until its <pre> ends with END or has FAILED, and prints it:

  tests/wasm/browser.py chromium|firefox PAGE [SECONDS]

Each is driven by its own protocol, DevTools or Marionette, which needs nothing else. Ends with 1 if the page failed, and
with 77 if there is no such browser here."""
import json
import os
import shutil
import socket
import subprocess
import sys
import tempfile
import time

sys.dont_write_bytecode = True
sys.path[:0] = [os.path.join(os.path.dirname(os.path.abspath(__file__)), "..", "page")]
import browsers  # noqa: E402

TEXT = "return document.querySelector('pre').textContent"


class Chromium(browsers.Chromium):
    def __init__(self, _folder=None):
        super().__init__()

    def open(self, page):
        """Opens a file, or a URL, and waits until it is loaded."""
        super().open(page if "://" in page else f"file://{page}")
        while self.js("document.readyState !== 'complete' || location.href === 'about:blank'"):
            time.sleep(0.05)

    def text(self):
        return self.js(f"(() => {{ {TEXT} }})()")

    def close(self):
        self.end()


class Firefox:
    """A message is its length, a colon, and JSON: [0, number, command, parameters], answered by [1, number, error, result]."""

    def __init__(self, folder):
        with socket.socket() as free:
            free.bind(("127.0.0.1", 0))
            port = free.getsockname()[1]
        with open(os.path.join(folder, "user.js"), "w", encoding="utf-8") as file:
            file.write(f'user_pref("marionette.port", {port});\n')
        words = ["--headless", "--marionette", "--no-remote", "--profile", folder]
        quiet = {"stdout": subprocess.DEVNULL, "stderr": subprocess.DEVNULL}
        self.process = subprocess.Popen([firefox(), *words], env={**os.environ, "HOME": folder}, **quiet)
        self.socket, self.unread, self.number = connected(port), b"", 0
        self.received()
        self.ask("WebDriver:NewSession", {})

    def received(self):
        while b":" not in self.unread:
            self.unread += self.socket.recv(1 << 16)
        length, _, rest = self.unread.partition(b":")
        while len(rest) < int(length):
            rest += self.socket.recv(1 << 16)
        self.unread = rest[int(length) :]
        return json.loads(rest[: int(length)])

    def ask(self, command, parameters):
        self.number += 1
        message = json.dumps([0, self.number, command, parameters]).encode()
        self.socket.sendall(b"%d:%s" % (len(message), message))
        _, _, error, result = self.received()
        if error:
            raise RuntimeError(error)
        return result

    def open(self, page):
        self.ask("WebDriver:Navigate", {"url": f"file://{page}"})

    def text(self):
        return self.ask("WebDriver:ExecuteScript", {"script": TEXT, "args": []})["value"]

    def close(self):
        self.process.terminate()
        self.process.wait(30)


def firefox():
    return shutil.which("firefox-esr") or shutil.which("firefox")


def connected(port):
    for _ in range(200):
        try:
            return socket.create_connection(("127.0.0.1", port), timeout=300)
        except OSError:
            time.sleep(0.2)
    raise RuntimeError("Firefox doesn't listen")


def is_there(name):
    return (firefox() if name == "firefox" else Chromium.program()) is not None


def main():
    name, page, *seconds = sys.argv[1:]
    if not is_there(name):
        sys.exit(77)
    last = time.monotonic() + float(seconds[0] if seconds else 600)
    with tempfile.TemporaryDirectory(ignore_cleanup_errors=True) as folder:
        browser = {"chromium": Chromium, "firefox": Firefox}[name](folder)
        try:
            browser.open(os.path.abspath(page))
            text = browser.text()
            while not text.endswith("END\n") and "FAILED" not in text and time.monotonic() < last:
                time.sleep(0.5)
                text = browser.text()
        finally:
            browser.close()
    print(text, end="")
    sys.exit(0 if text.endswith("END\n") else 1)


if __name__ == "__main__":
    main()
