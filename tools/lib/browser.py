"""A browser without a window, driven over the two pipes of its DevTools protocol. Used by test_report."""
import base64, json, os, shutil, subprocess, tempfile

NAMES = ("chromium", "chromium-browser", "google-chrome-stable", "google-chrome")
SECONDS = 120

def program():
    return next(filter(None, map(shutil.which, NAMES)), None)

class Failed(Exception):
    """What the browser or a script of the page says of a fault."""

class Browser:
    """One page of a browser; messages are JSON, with a byte 0 after each."""
    def __init__(self, width=1280, height=900):
        self.profile, self.count, self.kept, self.events = tempfile.mkdtemp(), 0, b"", []
        (to_read, self.to), (self.answers, to_write) = os.pipe(), os.pipe()
        def pipes():  # the browser reads commands at 3 and writes answers at 4
            at = [os.dup(to_read), os.dup(to_write)]
            os.dup2(at[0], 3)
            os.dup2(at[1], 4)
        self.ran = subprocess.Popen(
            [program(), "--headless=new", "--no-sandbox", "--disable-gpu", "--disable-dev-shm-usage", "--no-first-run",
             "--remote-debugging-pipe", f"--user-data-dir={self.profile}", "about:blank"],
            preexec_fn=pipes, close_fds=False, stdout=subprocess.DEVNULL, stderr=subprocess.DEVNULL, stdin=subprocess.DEVNULL)
        os.close(to_read)
        os.close(to_write)
        self.session = None
        page = next(it for it in self.call("Target.getTargets")["targetInfos"] if it["type"] == "page")
        self.session = self.call("Target.attachToTarget", targetId=page["targetId"], flatten=True)["sessionId"]
        for domain in ("Page", "Runtime", "Log"):
            self.call(f"{domain}.enable")
        self.size(width, height)

    def close(self):
        os.close(self.to)
        os.close(self.answers)
        self.ran.terminate()
        self.ran.wait()
        shutil.rmtree(self.profile, ignore_errors=True)  # the browser's children may still write there

    def message(self):
        while b"\0" not in self.kept:
            data = os.read(self.answers, 1 << 16)
            if not data:
                raise Failed("the browser went away")
            self.kept += data
        text, _, self.kept = self.kept.partition(b"\0")
        return json.loads(text)

    def call(self, method, **given):
        self.count += 1
        asked = {"id": self.count, "method": method, "params": given}
        if self.session:
            asked["sessionId"] = self.session
        data = json.dumps(asked).encode() + b"\0"
        while data:
            data = data[os.write(self.to, data):]
        while (answer := self.message()).get("id") != self.count:
            self.events.append(answer)
        if "error" in answer:
            raise Failed(f"{method}: {answer['error']['message']}")
        return answer["result"]

    def wait_for(self, method):
        while not any(it.get("method") == method for it in self.events):
            self.events.append(self.message())
        self.events = [it for it in self.events if it.get("method") != method]

    def size(self, width, height, dark=False):
        self.call("Emulation.setDeviceMetricsOverride", width=width, height=height, deviceScaleFactor=1, mobile=False)
        self.call("Emulation.setEmulatedMedia", features=[{"name": "prefers-color-scheme", "value": "dark" if dark else "light"}])

    def open(self, path, hash=""):
        """Opens a file, by way of an empty page, so that another part after # is another page too."""
        for address in ("about:blank", f"file://{path}{hash}"):
            self.events = [it for it in self.events if it.get("method") != "Page.loadEventFired"]
            self.call("Page.navigate", url=address)
            self.wait_for("Page.loadEventFired")

    def run(self, script):
        """What an expression of the page's script gives, once it is there."""
        answer = self.call("Runtime.evaluate", expression=script, returnByValue=True, awaitPromise=True)
        if "exceptionDetails" in answer:
            raise Failed(answer["exceptionDetails"].get("exception", {}).get("description", "a script failed"))
        return answer["result"].get("value")

    def key(self, name, code=0, shift=False):
        for kind in ("rawKeyDown", "keyUp"):
            self.call("Input.dispatchKeyEvent", type=kind, key=name, code=name, windowsVirtualKeyCode=code, modifiers=8 * shift)

    def click(self, selector):
        x, y = self.run(f"(it => {{ it.scrollIntoView({{block: 'center'}}); const box = it.getBoundingClientRect(); "
                        f"return [box.x + box.width / 2, box.y + box.height / 2] }})(document.querySelector({json.dumps(selector)}))")
        for kind in ("mousePressed", "mouseReleased"):
            self.call("Input.dispatchMouseEvent", type=kind, x=x, y=y, button="left", clickCount=1)

    def faults(self):
        """What the page wrote of faults: of its scripts, and of what its policy refuses."""
        return [it["params"] for it in self.events if it.get("method") in ("Runtime.exceptionThrown", "Log.entryAdded")]

    def picture(self):
        return base64.b64decode(self.call("Page.captureScreenshot", format="png")["data"])
