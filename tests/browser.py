"""A page in headless Chromium, which is led over a pipe: keys, what the page then holds, its errors, and pictures of it.

python3 browser.py PAGE OUT.png WIDTH HEIGHT light|dark [KEY ..] takes a picture of a page behind some keys.
"""

import base64
import json
import os
import shutil
import subprocess
import sys
import tempfile

KEYS = {"ArrowRight": 39, "ArrowLeft": 37, "ArrowDown": 40, "ArrowUp": 38, "Home": 36, "End": 35, "PageDown": 34, "PageUp": 33, "l": 76, "m": 77, "n": 78, "u": 85}


def find_chromium():
    return next((found for found in map(shutil.which, ("chromium", "chromium-browser", "google-chrome")) if found), None)


class Browser:
    """A browser with one page. `errors` are what its console had of errors, and exceptions that nothing caught."""

    def __init__(self, width=1280, height=900, dark=False):
        self.folder = tempfile.mkdtemp(prefix="svemu-pages.")
        from_us, self.to = os.pipe()
        self.back, to_us = os.pipe()
        # The browser reads from its file 3 and writes to its file 4.
        line = ["sh", "-c", 'exec "$0" "$@" 3<&%d 4>&%d' % (from_us, to_us), find_chromium(), "--headless=new", "--no-sandbox", "--disable-gpu",
                "--remote-debugging-pipe", "--no-first-run", f"--user-data-dir={self.folder}", f"--window-size={width},{height}", "about:blank"]
        if from_us > 9 or to_us > 9:
            raise OSError("the shell names files by one digit")
        self.process = subprocess.Popen(line, pass_fds=(from_us, to_us), stdout=subprocess.DEVNULL, stderr=subprocess.DEVNULL)
        os.close(from_us)
        os.close(to_us)
        self.held, self.count, self.events, self.errors, self.session = b"", 0, [], [], None
        target = next(page for page in self.call("Target.getTargets")["targetInfos"] if page["type"] == "page")
        self.session = self.call("Target.attachToTarget", targetId=target["targetId"], flatten=True)["sessionId"]
        for domain in ("Page", "Runtime", "Log"):
            self.call(f"{domain}.enable")
        self.call("Emulation.setDeviceMetricsOverride", width=width, height=height, deviceScaleFactor=1, mobile=False)
        self.call("Emulation.setEmulatedMedia", features=[{"name": "prefers-color-scheme", "value": "dark" if dark else "light"}])

    def message(self):
        while b"\0" not in self.held:
            more = os.read(self.back, 1 << 16)
            if not more:
                raise OSError("the browser has ended")
            self.held += more
        text, self.held = self.held.split(b"\0", 1)
        return json.loads(text)

    def call(self, method, **parameters):
        self.count += 1
        request = {"id": self.count, "method": method, "params": parameters} | ({"sessionId": self.session} if self.session else {})
        os.write(self.to, json.dumps(request).encode() + b"\0")
        while True:
            answer = self.message()
            if answer.get("id") == self.count:
                if "error" in answer:
                    raise OSError(f"{method}: {answer['error']['message']}")
                return answer["result"]
            self.event(answer)

    def event(self, answer):
        method, parameters = answer["method"], answer["params"]
        self.events.append(method)
        if method == "Runtime.exceptionThrown":
            details = parameters["exceptionDetails"]
            self.errors.append(details.get("exception", {}).get("description") or details["text"])
        elif method == "Log.entryAdded" and parameters["entry"]["level"] == "error":
            self.errors.append(parameters["entry"]["text"])
        elif method == "Runtime.consoleAPICalled" and parameters["type"] in ("error", "assert"):
            self.errors.append(str(parameters["args"]))

    def open(self, file):
        self.events = []
        self.call("Page.navigate", url="file://" + os.path.abspath(file))
        while "Page.loadEventFired" not in self.events:
            self.event(self.message())

    def press(self, key):
        for kind in ("rawKeyDown", "keyUp"):
            self.call("Input.dispatchKeyEvent", type=kind, key=key, code=key, windowsVirtualKeyCode=KEYS[key])

    def settle(self):
        """Waits until what comes near the window is drawn."""
        self.call("Runtime.evaluate", expression="new Promise(done => requestAnimationFrame(() => setTimeout(done, 200)))", awaitPromise=True)

    def hidden(self, selector, bar):
        """What of an element isn't in the window below a bar at its top: nothing, or where it stands. An element that the window is too
        low for begins below the bar."""
        self.settle()
        top, bottom, bar, room = self.value(f"""(() => {{
          const box = document.querySelector({json.dumps(selector)}).getBoundingClientRect();
          const bar = document.querySelector({json.dumps(bar)}).getBoundingClientRect();
          return [box.top, box.bottom, bar.bottom, innerHeight];
        }})()""")
        seen = top >= bar - 1 and (bottom <= room + 1 or bottom - top > room - bar - 16 and top <= bar + 16)
        return "" if seen else f"{selector} stands from {top:.0f} to {bottom:.0f} in a window from {bar:.0f} to {room}"

    def value(self, expression):
        return self.call("Runtime.evaluate", expression=expression, returnByValue=True)["result"].get("value")

    def picture(self, file):
        self.call("Runtime.evaluate", expression="new Promise(done => requestAnimationFrame(() => setTimeout(done, 300)))", awaitPromise=True)
        with open(file, "wb") as out:
            out.write(base64.b64decode(self.call("Page.captureScreenshot", format="png")["data"]))

    def close(self):
        try:
            self.session = None
            self.call("Browser.close")
        except OSError:
            pass
        os.close(self.to)
        os.close(self.back)
        try:
            self.process.wait(20)
        except subprocess.TimeoutExpired:
            self.process.kill()
            self.process.wait()
        shutil.rmtree(self.folder, ignore_errors=True)


if __name__ == "__main__":
    page, out, width, height, look = sys.argv[1:6]
    browser = Browser(int(width), int(height), look == "dark")
    try:
        browser.open(page)
        for key in sys.argv[6:]:
            browser.press(key)
        browser.picture(out)
        print("\n".join(browser.errors), end="")
    finally:
        browser.close()
