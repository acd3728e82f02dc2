"""Chromium without a window, asked by its debugging pipe one thing after another."""
import base64
import itertools
import json
import os
import select
import subprocess
import tempfile

FLAGS = ["--headless", "--no-sandbox", "--disable-gpu", "--remote-debugging-pipe", "--no-first-run",
         "--window-size=1400,900", "--disable-background-networking",
         "--disable-background-timer-throttling", "--disable-backgrounding-occluded-windows",
         "--disable-renderer-backgrounding"]
# How long the browser may take for a reply.
SECONDS = 120
KEYS = {"ArrowLeft": 37, "ArrowRight": 39, "ArrowDown": 40, "Home": 36, "End": 35, "Escape": 27,
        "Enter": 13, " ": 32}


class Browser:
    """Chromium, asked one thing after another."""

    def __init__(self, program):
        self.profile = tempfile.TemporaryDirectory()
        to_read, self.to = os.pipe()
        self.out, to_write = os.pipe()

        def in_child():
            os.dup2(to_read, 103), os.dup2(to_write, 104)
            os.dup2(103, 3), os.dup2(104, 4)

        self.process = subprocess.Popen(
            [program, *FLAGS, "--user-data-dir=" + self.profile.name], preexec_fn=in_child,
            close_fds=False, stdin=subprocess.DEVNULL, stdout=subprocess.DEVNULL,
            stderr=subprocess.DEVNULL)
        os.close(to_read), os.close(to_write)
        self.rest, self.ids, self.events, self.session = b"", itertools.count(1), [], None
        target = self.ask("Target.createTarget", url="about:blank")["targetId"]
        asked = self.ask("Target.attachToTarget", targetId=target, flatten=True)
        self.session = asked["sessionId"]
        for domain in ("Page", "Runtime", "Log", "Network"):
            self.ask(domain + ".enable")

    def ask(self, method, **params):
        message = {"id": next(self.ids), "method": method, "params": params}
        if self.session:
            message["sessionId"] = self.session
        os.write(self.to, json.dumps(message).encode() + b"\0")
        while True:
            reply = self.read()
            if reply.get("id") == message["id"]:
                if "error" in reply:
                    raise RuntimeError(f"{method}: {reply['error']['message']}")
                return reply["result"]
            self.events.append(reply)

    def read(self):
        while b"\0" not in self.rest:
            if not select.select([self.out], [], [], SECONDS)[0]:
                raise RuntimeError("the browser does not reply")
            more = os.read(self.out, 1 << 16)
            if not more:
                raise RuntimeError("the browser ended")
            self.rest += more
        text, self.rest = self.rest.split(b"\0", 1)
        return json.loads(text)

    def open(self, url):
        self.events.clear()
        self.ask("Page.navigate", url=url)
        while not any(it.get("method") == "Page.loadEventFired" for it in self.events):
            self.events.append(self.read())

    def value(self, expression):
        result = self.ask("Runtime.evaluate", expression=expression, returnByValue=True,
                          awaitPromise=True)
        if "exceptionDetails" in result:
            raise RuntimeError(f"{expression}: {result['exceptionDetails']}")
        return result["result"].get("value")

    def text(self, selector):
        return self.value(f"document.querySelector({json.dumps(selector)}).textContent")

    def press(self, *keys):
        for key in keys:
            named = {"key": key, "windowsVirtualKeyCode": KEYS[key]}
            text = {" ": " ", "Enter": "\r"}.get(key)
            self.ask("Input.dispatchKeyEvent", type="keyDown", **named, **({"text": text} if text else {}))
            self.ask("Input.dispatchKeyEvent", type="keyUp", **named)

    def point(self, selector, *kinds):
        x, y = self.value(f"""(() => {{ const it = document.querySelector({json.dumps(selector)});
            it.scrollIntoView({{block: 'center'}}); const box = it.getBoundingClientRect();
            return [box.x + box.width / 2, box.y + Math.min(box.height, 20) / 2]; }})()""")
        for kind in ("mouseMoved",) + kinds:
            button = {} if kind == "mouseMoved" else {"button": "left", "clickCount": 1}
            self.ask("Input.dispatchMouseEvent", type=kind, x=x, y=y, **button)

    def click(self, selector):
        self.point(selector, "mousePressed", "mouseReleased")

    def faults(self):
        names = ("Runtime.exceptionThrown", "Log.entryAdded", "Runtime.consoleAPICalled")
        return [it["params"] for it in self.events if it.get("method") in names]

    def requests(self):
        return {it["params"]["request"]["url"] for it in self.events
                if it.get("method") == "Network.requestWillBeSent"}

    def shoot(self, path, width, height, scheme):
        self.ask("Emulation.setDeviceMetricsOverride", width=width, height=height,
                 deviceScaleFactor=1, mobile=False)
        scheme = {"name": "prefers-color-scheme", "value": scheme}
        self.ask("Emulation.setEmulatedMedia", features=[scheme])
        self.value("new Promise(done => setTimeout(done, 200))")
        path.write_bytes(base64.b64decode(self.ask("Page.captureScreenshot")["data"]))

    def close(self):
        self.session = None
        try:
            self.ask("Browser.close")
        except (OSError, RuntimeError):
            pass
        try:
            self.process.wait(SECONDS)
        except subprocess.TimeoutExpired:
            self.process.kill()
