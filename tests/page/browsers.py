"""Browsers without a screen: Chromium by its DevTools protocol over a pipe, Firefox by its Marionette
protocol. Nothing but the two programs is needed. What a page gives to be saved comes into the folder
`files`."""
import base64
import json
import os
import shutil
import socket
import subprocess
import tempfile
import time


class Trouble(Exception):
    """What a browser, or the page in it, answers instead of a value."""


class Chromium:
    name = "Chromium"

    @staticmethod
    def program():
        return next(
            (
                found
                for found in map(shutil.which, ("chromium", "chromium-browser", "google-chrome"))
                if found
            ),
            None,
        )

    def __init__(self):
        self.folder, self.files = tempfile.mkdtemp(), tempfile.mkdtemp()
        self.number, self.events = 0, []
        theirs_in, self.to = os.pipe()
        self.back, theirs_out = os.pipe()
        words = [
            self.program(),
            "--headless=new",
            "--no-sandbox",
            "--disable-gpu",
            "--disable-dev-shm-usage",
            "--hide-scrollbars",
            "--no-first-run",
            "--disable-background-networking",
            "--remote-debugging-pipe",
            f"--user-data-dir={self.folder}",
            "about:blank",
        ]
        call = ["sh", "-c", f'exec "$@" 3<&{theirs_in} 4>&{theirs_out}', "sh", *words]
        quiet = subprocess.DEVNULL
        self.process = subprocess.Popen(
            call, pass_fds=(theirs_in, theirs_out), stdin=quiet, stdout=quiet, stderr=quiet
        )
        os.close(theirs_in)
        os.close(theirs_out)
        self.rest, self.session = b"", None
        self.ask("Browser.setDownloadBehavior", behavior="allow", downloadPath=self.files)
        self.ask("Browser.grantPermissions", permissions=["clipboardReadWrite", "clipboardSanitizedWrite"])
        target = next(it for it in self.ask("Target.getTargets")["targetInfos"] if it["type"] == "page")
        self.session = self.ask("Target.attachToTarget", targetId=target["targetId"], flatten=True)[
            "sessionId"
        ]
        for domain in ("Page", "Runtime", "Log"):
            self.ask(f"{domain}.enable")
        self.ask("Emulation.setFocusEmulationEnabled", enabled=True)

    def ask(self, method, **words):
        """Sends a command, and waits for its answer."""
        self.number += 1
        message = {"id": self.number, "method": method, "params": words}
        if self.session:
            message["sessionId"] = self.session
        data = json.dumps(message).encode() + b"\0"
        while data:
            data = data[os.write(self.to, data) :]
        while True:
            answer = self.receive()
            if answer.get("id") == self.number:
                if "error" in answer:
                    raise Trouble(f"{method}: {answer['error']['message']}")
                return answer["result"]
            self.events.append(answer)

    def receive(self):
        while b"\0" not in self.rest:
            data = os.read(self.back, 1 << 20)
            if not data:
                raise Trouble("the browser has ended")
            self.rest += data
        message, self.rest = self.rest.split(b"\0", 1)
        return json.loads(message)

    def js(self, text):
        """The value of an expression of the page, or of the promise that it is."""
        answer = self.ask("Runtime.evaluate", expression=text, awaitPromise=True, returnByValue=True)
        if "exceptionDetails" in answer:
            told = answer["exceptionDetails"]
            raise Trouble(told.get("exception", {}).get("description", told["text"]))
        return answer["result"].get("value")

    def add(self, script):
        """Runs a script of definitions in the page."""
        self.js(f"{script}\ntrue")

    def size(self, width, height, ratio=1, phone=False, scheme="light"):
        self.ask(
            "Emulation.setDeviceMetricsOverride",
            width=width,
            height=height,
            deviceScaleFactor=ratio,
            mobile=phone,
        )
        self.ask("Emulation.setTouchEmulationEnabled", enabled=phone, maxTouchPoints=5)
        features = [{"name": "prefers-color-scheme", "value": scheme}]
        self.ask("Emulation.setEmulatedMedia", features=features)

    def open(self, url):
        self.ask("Page.navigate", url="about:blank")
        self.ask("Page.navigate", url=url)

    def mouse(self, kind, x, y, **more):
        self.ask("Input.dispatchMouseEvent", type=kind, x=x, y=y, **more)

    def move(self, x, y):
        self.mouse("mouseMoved", x, y)

    def drag(self, x, y, dx, dy):
        self.mouse("mousePressed", x, y, button="left", clickCount=1)
        for i in range(1, 6):
            self.mouse("mouseMoved", x + dx * i / 5, y + dy * i / 5, button="left", buttons=1)
        self.mouse("mouseReleased", x + dx, y + dy, button="left", clickCount=1)

    def click(self, x, y):
        self.drag(x, y, 0, 0)

    def wheel(self, x, y, by):
        self.mouse("mouseWheel", x, y, deltaX=0, deltaY=by)

    def fingers(self, *frames):
        """Fingers go from place to place: each frame has a place for each finger."""
        for i, frame in enumerate(frames):
            points = [{"x": x, "y": y, "id": number} for number, (x, y) in enumerate(frame)]
            self.ask("Input.dispatchTouchEvent", type="touchMove" if i else "touchStart", touchPoints=points)
        self.ask("Input.dispatchTouchEvent", type="touchEnd", touchPoints=[])

    def key(self, key):
        code = {
            "Home": 36,
            "Enter": 13,
            "Escape": 27,
            "ArrowLeft": 37,
            "ArrowUp": 38,
            "ArrowRight": 39,
            "ArrowDown": 40,
            "Tab": 9,
        }
        more = {"windowsVirtualKeyCode": code[key]} if key in code else {"text": key}
        if key == "Enter":
            more["text"] = "\r"
        self.ask("Input.dispatchKeyEvent", type="keyDown", key=key, **more)
        self.ask("Input.dispatchKeyEvent", type="keyUp", key=key)

    def picture(self):
        return base64.b64decode(self.ask("Page.captureScreenshot", format="png")["data"])

    def complaints(self):
        """What the page wrote on the console, or threw."""
        said = []
        for event in self.events:
            told = event.get("params", {})
            if event.get("method") == "Runtime.exceptionThrown":
                said.append(told["exceptionDetails"].get("exception", {}).get("description", "an exception"))
            if event.get("method") == "Log.entryAdded" and told["entry"]["level"] == "error":
                said.append(told["entry"]["text"])
            if event.get("method") == "Runtime.consoleAPICalled" and told["type"] in ("error", "warning"):
                said.append(" ".join(str(it.get("value", it.get("description"))) for it in told["args"]))
        return said

    def end(self):
        self.process.terminate()
        self.process.wait()
        for folder in (self.folder, self.files):
            shutil.rmtree(folder, ignore_errors=True)


class Firefox:
    name = "Firefox"

    @staticmethod
    def program():
        return next((found for found in map(shutil.which, ("firefox-esr", "firefox")) if found), None)

    def __init__(self):
        self.folder, self.files, self.number = tempfile.mkdtemp(), tempfile.mkdtemp(), 0
        with socket.socket() as free:
            free.bind(("127.0.0.1", 0))
            port = free.getsockname()[1]
        wanted = {
            "marionette.port": port,
            "browser.shell.checkDefaultBrowser": False,
            "datareporting.policy.dataSubmissionEnabled": False,
            "app.update.enabled": False,
            "browser.download.folderList": 2,
            "browser.download.dir": self.files,
            "browser.download.alwaysOpenPanel": False,
            "browser.helperApps.neverAsk.saveToDisk": "image/svg+xml,image/png,application/json",
            "dom.events.testing.asyncClipboard": True,
        }
        with open(os.path.join(self.folder, "user.js"), "w", encoding="utf-8") as file:
            file.writelines(
                f"user_pref({json.dumps(name)}, {json.dumps(value)});\n" for name, value in wanted.items()
            )
        words = [
            self.program(),
            "--headless",
            "--marionette",
            "--no-remote",
            "--profile",
            self.folder,
            "about:blank",
        ]
        quiet = subprocess.DEVNULL
        self.process = subprocess.Popen(
            words, stdin=quiet, stdout=quiet, stderr=quiet, env={**os.environ, "HOME": self.folder}
        )
        self.link = self.connected(port)
        self.receive()
        self.ask("WebDriver:NewSession", strictFileInteractability=False)

    def connected(self, port):
        for _ in range(300):
            try:
                return socket.create_connection(("127.0.0.1", port), timeout=120)
            except OSError:
                time.sleep(0.2)
        raise Trouble("Firefox doesn't start")

    def receive(self):
        size = b""
        while not size.endswith(b":"):
            part = self.link.recv(1)
            if not part:
                raise Trouble("the browser has ended")
            size += part
        left, data = int(size[:-1]), b""
        while len(data) < left:
            data += self.link.recv(left - len(data))
        return json.loads(data)

    def ask(self, method, **words):
        self.number += 1
        data = json.dumps([0, self.number, method, words]).encode()
        self.link.sendall(str(len(data)).encode() + b":" + data)
        _, _, error, value = self.receive()
        if error:
            raise Trouble(f"{method}: {error['message']}")
        return value

    def js(self, text):
        """As that of Chromium. The page forbids eval, so the expression is a part of the script."""
        script = (
            f"const done = arguments[0]; Promise.resolve().then(() => ({text}))"
            ".then(value => done({value}), fault => done({fault: String(fault)}))"
        )
        told = self.ask("WebDriver:ExecuteAsyncScript", script=script, args=[], newSandbox=False)["value"]
        if told.get("fault"):
            raise Trouble(told["fault"])
        return told.get("value")

    def add(self, script):
        """Runs a script of definitions in the page."""
        self.ask("WebDriver:ExecuteScript", script=script, args=[], newSandbox=False)

    def size(self, width, height, ratio=1, phone=False, scheme="light"):
        """A window whose page has this size; Firefox is neither a phone nor dark here."""
        self.ask("WebDriver:SetWindowRect", width=width, height=height)
        inner = self.js("[innerWidth, innerHeight]")
        self.ask("WebDriver:SetWindowRect", width=2 * width - inner[0], height=2 * height - inner[1])

    def open(self, url):
        self.ask("WebDriver:Navigate", url="about:blank")
        self.ask("WebDriver:Navigate", url=url)

    def act(self, *sources):
        self.ask("WebDriver:PerformActions", actions=list(sources))
        self.ask("WebDriver:ReleaseActions")

    def pointer(self, *steps, kind="mouse", name="pointer"):
        return {"type": "pointer", "id": name, "parameters": {"pointerType": kind}, "actions": list(steps)}

    @staticmethod
    def to(x, y):
        return {"type": "pointerMove", "duration": 0, "x": round(x), "y": round(y)}

    def move(self, x, y):
        self.ask("WebDriver:PerformActions", actions=[self.pointer(self.to(x, y))])

    def drag(self, x, y, dx, dy):
        steps = [self.to(x + dx * i / 5, y + dy * i / 5) for i in range(1, 6)]
        self.act(
            self.pointer(
                self.to(x, y),
                {"type": "pointerDown", "button": 0},
                *steps,
                {"type": "pointerUp", "button": 0},
            )
        )

    def click(self, x, y):
        self.act(
            self.pointer(
                self.to(x, y), {"type": "pointerDown", "button": 0}, {"type": "pointerUp", "button": 0}
            )
        )

    def wheel(self, x, y, by):
        step = {
            "type": "scroll",
            "x": round(x),
            "y": round(y),
            "deltaX": 0,
            "deltaY": round(by),
            "duration": 0,
        }
        self.act({"type": "wheel", "id": "wheel", "actions": [step]})

    def fingers(self, *frames):
        sources = []
        for number in range(len(frames[0])):
            first, *others = [self.to(*frame[number]) for frame in frames]
            steps = [
                first,
                {"type": "pointerDown", "button": 0},
                *({**it, "duration": 20} for it in others),
                {"type": "pointerUp", "button": 0},
            ]
            sources.append(self.pointer(*steps, kind="touch", name=f"finger{number}"))
        self.act(*sources)

    def key(self, key):
        codes = {
            "Home": "\ue011",
            "Enter": "\ue007",
            "Escape": "\ue00c",
            "ArrowLeft": "\ue012",
            "ArrowUp": "\ue013",
            "ArrowRight": "\ue014",
            "ArrowDown": "\ue015",
            "Tab": "\ue004",
        }
        value = codes.get(key, key)
        self.act(
            {
                "type": "key",
                "id": "keys",
                "actions": [{"type": "keyDown", "value": value}, {"type": "keyUp", "value": value}],
            }
        )

    def picture(self):
        return base64.b64decode(self.ask("WebDriver:TakeScreenshot", full=False)["value"])

    def complaints(self):
        return []

    def end(self):
        self.process.terminate()
        self.process.wait()
        for folder in (self.folder, self.files):
            shutil.rmtree(folder, ignore_errors=True)
