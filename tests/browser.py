"""A headless Chromium, driven through its debugging pipe: keys, mouse and touches as a user gives them."""
import json
import os
import shutil
import subprocess
import tempfile
import time

from shared import end, tell

PATH = shutil.which("chromium") or shutil.which("chromium-browser") or shutil.which("google-chrome")
# The keys that have another code than their letter.
CODES = {"Backspace": ("Backspace", 8), " ": ("Space", 32), "Enter": ("Enter", 13)}


def need(**packages):
    """Ends the script untried, and says so, if Chromium or one of these programs isn't there. Each has the name of its package."""
    missing = [] if PATH else ["chromium"]
    missing += [package for program, package in packages.items() if not shutil.which(program)]
    if missing:
        tell(f"not tried, as there is no {' and no '.join(missing)} (apt-get install {' '.join(missing)})")
        end()


class Browser:
    """One page in a browser with a folder of its own."""

    def __init__(self):
        self.folder = tempfile.mkdtemp(prefix="typing-in-browser-")
        (from_test, to_browser), (from_browser, to_test) = os.pipe(), os.pipe()
        self.process = subprocess.Popen(
            ["sh", "-c", f"exec 3<&{from_test} 4>&{to_test} && exec \"$@\"", "sh", PATH, "--headless=new", "--no-sandbox", "--disable-gpu",
             "--no-first-run", "--remote-debugging-pipe", f"--user-data-dir={self.folder}", "about:blank"],
            pass_fds=(from_test, to_test), stdout=subprocess.DEVNULL, stderr=subprocess.DEVNULL)
        os.close(from_test)
        os.close(to_test)
        self.to, self.read = to_browser, os.fdopen(from_browser, "rb", buffering=0)
        self.rest, self.number, self.events, self.session = b"", 0, [], None
        target = self.send("Target.createTarget", url="about:blank")["targetId"]
        self.session = self.send("Target.attachToTarget", targetId=target, flatten=True)["sessionId"]
        for domain in ("Page", "Runtime", "Log", "Network"):
            self.send(domain + ".enable")

    def message(self):
        """The next message of the browser."""
        while b"\0" not in self.rest:
            more = self.read.read(65536)
            if not more:
                raise RuntimeError("the browser has ended")
            self.rest += more
        text, self.rest = self.rest.split(b"\0", 1)
        return json.loads(text)

    def send(self, method, **values):
        """Sends a command, and waits for its answer; events that come before it are kept."""
        self.number += 1
        command = {"id": self.number, "method": method, "params": values}
        if self.session:
            command["sessionId"] = self.session
        os.write(self.to, json.dumps(command).encode() + b"\0")
        while True:
            answer = self.message()
            if answer.get("id") == self.number:
                if "error" in answer:
                    raise RuntimeError(f"{method}: {answer['error']}")
                return answer["result"]
            self.events.append(answer)

    def js(self, text):
        """The value of an expression on the page."""
        answer = self.send("Runtime.evaluate", expression=text, returnByValue=True, awaitPromise=True)
        if "exceptionDetails" in answer:
            raise RuntimeError(answer["exceptionDetails"])
        return answer["result"].get("value")

    def open(self, path):
        self.events.clear()
        self.send("Page.navigate", url="file://" + path)
        for _ in range(400):
            if self.js("document.readyState === 'complete' && location.href !== 'about:blank'"):
                return
            time.sleep(0.02)
        raise RuntimeError("not loaded: " + path)

    def key(self, key, up=True, control=False, again=False):
        """Presses a key of the computer, and lets it go. `again`: the key is held, and repeats."""
        code, number = CODES.get(key) or ("Key" + key.upper() if key.isascii() and key.isalpha() else "", ord(key.upper()))
        text = "" if control or key == "Backspace" else "\r" if key == "Enter" else key
        self.send("Input.dispatchKeyEvent", type="keyDown" if text else "rawKeyDown", key=key, code=code, text=text,
                  windowsVirtualKeyCode=number, modifiers=2 * control, autoRepeat=again)
        if up:
            self.send("Input.dispatchKeyEvent", type="keyUp", key=key, code=code, windowsVirtualKeyCode=number)

    def keys(self, text):
        for letter in text:
            self.key(letter)

    def place(self, selector):
        """The middle of an element, which is scrolled into view."""
        return dict(zip("xy", self.js(f"""(e => {{ e.scrollIntoView({{block: 'nearest'}}); const r = e.getBoundingClientRect()
            return [r.x + r.width / 2, r.y + r.height / 2] }})(document.querySelector({json.dumps(selector)}))""")))

    def down(self, selector):
        self.send("Input.dispatchMouseEvent", type="mousePressed", button="left", clickCount=1, **self.place(selector))

    def up(self, selector):
        self.send("Input.dispatchMouseEvent", type="mouseReleased", button="left", clickCount=1, **self.place(selector))

    def click(self, selector):
        self.down(selector)
        self.up(selector)

    def tap(self, selector):
        self.send("Input.dispatchTouchEvent", type="touchStart", touchPoints=[self.place(selector)])
        self.send("Input.dispatchTouchEvent", type="touchEnd", touchPoints=[])

    def size(self, width, height, touch=False):
        self.send("Emulation.setDeviceMetricsOverride", width=width, height=height, deviceScaleFactor=1, mobile=touch)
        self.send("Emulation.setTouchEmulationEnabled", enabled=touch)

    def close(self):
        os.close(self.to)
        try:
            self.process.wait(10)
        except subprocess.TimeoutExpired:
            self.process.kill()
            self.process.wait()
        shutil.rmtree(self.folder, ignore_errors=True)
