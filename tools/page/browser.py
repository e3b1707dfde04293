"""A page in a headless browser: Chromium, asked by its debugging protocol over a pipe, or Firefox, asked by Marionette over a socket."""
import base64
import json
import os
import select
import shutil
import socket
import subprocess
import tempfile
import time

# on a busy machine a browser answers late
PATIENCE = 600
# of keys that are no letter: the number that Chromium knows each by, and the letter that WebDriver has for it
KEYS = {
    "Tab": (9, "\ue004"), "Enter": (13, "\ue007"), "Escape": (27, "\ue00c"), "End": (35, "\ue010"), "Home": (36, "\ue011"), "ArrowLeft": (37, "\ue012"),
    "ArrowUp": (38, "\ue013"), "ArrowRight": (39, "\ue014"), "ArrowDown": (40, "\ue015"),
}
# what a key writes
WRITES = {"Enter": "\r"}
PREFERENCES = {
    "marionette.port": 0, "browser.shell.checkDefaultBrowser": False, "browser.aboutwelcome.enabled": False, "app.update.enabled": False,
    "datareporting.policy.dataSubmissionEnabled": False, "network.captive-portal-service.enabled": False,
    "network.connectivity-service.enabled": False, "toolkit.telemetry.reportingpolicy.firstRun": False,
}
DARK, LIGHT = 0, 1
VIEW = """const view = gBrowser.selectedBrowser;
for (const [side, pixels] of [["width", arguments[0]], ["height", arguments[1]]]) {
    for (const name of [side, `min-${side}`, `max-${side}`]) {
        view.style.setProperty(name, `${pixels}px`);
    }
}"""
SCHEME = 'Services.prefs.setIntPref("layout.css.prefers-color-scheme.content-override", arguments[0]);'


class BrowserFault(Exception):
    pass


class Browser:
    """One page of a browser that has a folder of its own, for as long as it is in use."""
    programs = ()

    @classmethod
    def program(cls):
        """The path of the browser that is installed; None where there is none."""
        return next((found for found in map(shutil.which, cls.programs) if found), None)

    def __enter__(self):
        self.folder = tempfile.mkdtemp(prefix="uicc-browser-")
        self.process = None
        try:
            self.start()
        except BaseException:
            self.__exit__()
            raise
        return self

    def __exit__(self, *_):
        if self.process:
            self.process.terminate()
            self.process.wait()
        shutil.rmtree(self.folder, ignore_errors=True)

    def open(self, path):
        """Opens a page in a file, without what an earlier one left in the address."""
        self.go("about:blank")
        self.go("file://" + path)
        self.wait("document.readyState === 'complete' && Boolean(globalThis.uicc)")

    def wait(self, condition, seconds=PATIENCE):
        until = time.monotonic() + seconds
        while not self.evaluate(f"Boolean({condition})"):
            if time.monotonic() > until:
                raise BrowserFault(f"this doesn't come: {condition}")
            time.sleep(0.05)

    def type(self, text):
        """Types letters, one by one."""
        for letter in text:
            self.press("Enter" if letter == "\n" else letter)

    def click(self, selector):
        """Clicks into the middle of an element, which is brought into sight."""
        self.evaluate(f"document.querySelector({json.dumps(selector)}).scrollIntoView({{ block: 'nearest' }})")
        self.click_at(*self.evaluate(f"""(() => {{
            const box = document.querySelector({json.dumps(selector)}).getBoundingClientRect();
            return [Math.round(box.left + box.width / 2), Math.round(box.top + box.height / 2)];
        }})()"""))


class Chromium(Browser):
    programs = ("chromium", "chromium-browser", "google-chrome")

    def start(self):
        to_read, self.to_browser = os.pipe()
        self.from_browser, to_write = os.pipe()
        words = [self.program(), "--headless=new", "--remote-debugging-pipe", "--disable-gpu", "--no-first-run", "--disable-dev-shm-usage",
                 f"--user-data-dir={self.folder}", "about:blank"]
        if os.geteuid() == 0:
            words.insert(1, "--no-sandbox")
        # the browser reads from file 3 and writes to file 4
        command = ["sh", "-c", f'exec "$@" 3<&{to_read} 4>&{to_write}', "sh", *words]
        self.process = subprocess.Popen(command, pass_fds=(to_read, to_write), stdout=subprocess.DEVNULL, stderr=subprocess.DEVNULL)
        os.close(to_read)
        os.close(to_write)
        self.count, self.heard, self.session = 0, b"", None
        target = self.ask("Target.createTarget", url="about:blank")["targetId"]
        self.session = self.ask("Target.attachToTarget", targetId=target, flatten=True)["sessionId"]
        self.ask("Page.enable")

    def __exit__(self, *_):
        super().__exit__()
        os.close(self.to_browser)
        os.close(self.from_browser)

    def ask(self, method, **parameters):
        """The answer to one call of the protocol."""
        self.count += 1
        call = {"id": self.count, "method": method, "params": parameters}
        if self.session:
            call["sessionId"] = self.session
        content = json.dumps(call).encode() + b"\0"
        while content:
            content = content[os.write(self.to_browser, content):]
        until = time.monotonic() + PATIENCE
        while True:
            message = self._next(until)
            if message.get("id") == self.count:
                if "error" in message:
                    raise BrowserFault(f"{method}: {message['error']['message']}")
                return message["result"]

    def _next(self, until):
        while b"\0" not in self.heard:
            if not select.select([self.from_browser], [], [], max(0, until - time.monotonic()))[0]:
                raise BrowserFault("the browser doesn't answer")
            part = os.read(self.from_browser, 1 << 20)
            if not part:
                raise BrowserFault("the browser ended")
            self.heard += part
        message, _, self.heard = self.heard.partition(b"\0")
        return json.loads(message)

    def go(self, address):
        self.ask("Page.navigate", url=address)
        self.wait(f"location.href.startsWith({json.dumps(address)}) && document.readyState === 'complete'")

    def evaluate(self, expression):
        """The value of an expression of JavaScript, which may be awaited."""
        answer = self.ask("Runtime.evaluate", expression=expression, awaitPromise=True, returnByValue=True)
        if "exceptionDetails" in answer:
            details = answer["exceptionDetails"]
            raise BrowserFault(details.get("exception", {}).get("description", details["text"]))
        return answer["result"].get("value")

    def size(self, width, height):
        self.ask("Emulation.setDeviceMetricsOverride", width=width, height=height, deviceScaleFactor=1, mobile=False)

    def scheme(self, name):
        """Has the page in `light` or `dark` colours."""
        self.ask("Emulation.setEmulatedMedia", features=[{"name": "prefers-color-scheme", "value": name}])

    def press(self, key):
        """A key of the keyboard, by its name or by the letter that it writes."""
        number, _ = KEYS.get(key, (0, None))
        text = WRITES.get(key, "" if key in KEYS else key)
        words = {"key": key, "code": key, "windowsVirtualKeyCode": number} if number else {"key": key}
        self.ask("Input.dispatchKeyEvent", type="keyDown", text=text, **words)
        self.ask("Input.dispatchKeyEvent", type="keyUp", **words)

    def click_at(self, left, top):
        for kind in ("mousePressed", "mouseReleased"):
            self.ask("Input.dispatchMouseEvent", type=kind, x=left, y=top, button="left", clickCount=1)

    def choose_file(self, selector, path):
        """Gives a file to an input that asks for one."""
        found = self.ask("Runtime.evaluate", expression=f"document.querySelector({json.dumps(selector)})")["result"]["objectId"]
        self.ask("DOM.setFileInputFiles", files=[path], objectId=found)

    def screenshot(self, path):
        """A picture of what is in sight."""
        put(path, self.ask("Page.captureScreenshot", format="png")["data"])


class Firefox(Browser):
    programs = ("firefox-esr", "firefox")

    def start(self):
        self.connection, self.count = None, 0
        with open(os.path.join(self.folder, "user.js"), "w", encoding="utf-8") as text:
            text.writelines(f"user_pref({json.dumps(name)}, {json.dumps(value)});\n" for name, value in PREFERENCES.items())
        words = [self.program(), "--headless", "--marionette", "--remote-allow-system-access", "--no-remote", "--profile", self.folder]
        self.process = subprocess.Popen(words, stdin=subprocess.DEVNULL, stdout=subprocess.DEVNULL, stderr=subprocess.DEVNULL,
                                        env={**os.environ, "HOME": self.folder, "MOZ_CRASHREPORTER_DISABLE": "1"})
        self.connection = socket.create_connection(("127.0.0.1", self._port()), PATIENCE)
        self.stream = self.connection.makefile("rb")
        self._message()
        self.ask("WebDriver:NewSession", strictFileInteractability=False)
        self.ask("WebDriver:SetTimeouts", script=PATIENCE * 1000)
        # in the page that Firefox begins with nothing can be evaluated
        self.go("about:blank")

    def _port(self):
        """The port that the browser listens on, which it writes into its folder."""
        path, until = os.path.join(self.folder, "MarionetteActivePort"), time.monotonic() + PATIENCE
        while time.monotonic() < until and self.process.poll() is None:
            try:
                with open(path, encoding="ascii") as text:
                    return int(text.read())
            except (FileNotFoundError, ValueError):
                time.sleep(0.1)
        raise BrowserFault("Firefox doesn't start")

    def __exit__(self, *_):
        if self.connection:
            self.connection.close()
        super().__exit__()

    def _message(self):
        length = b""
        while (digit := self.stream.read(1)) not in (b":", b""):
            length += digit
        if not length:
            raise BrowserFault("the browser ended")
        return json.loads(self.stream.read(int(length)))

    def ask(self, method, **parameters):
        """The answer to one call of the protocol."""
        self.count += 1
        content = json.dumps([0, self.count, method, parameters]).encode()
        try:
            self.connection.sendall(b"%d:%b" % (len(content), content))
            _, _, fault, answer = self._message()
        except (OSError, ValueError) as fault:
            raise BrowserFault(f"{method}: {fault}") from fault
        if fault:
            raise BrowserFault(f"{method}: {fault['message']}")
        return answer

    def _in_browser(self, script, *words):
        """Carries a script out in the browser itself, and not in the page."""
        self.ask("Marionette:SetContext", value="chrome")
        try:
            self.ask("WebDriver:ExecuteScript", script=script, args=list(words))
        finally:
            self.ask("Marionette:SetContext", value="content")

    def go(self, address):
        self.ask("WebDriver:Navigate", url=address)

    def evaluate(self, expression):
        """The value of an expression of JavaScript, which may be awaited."""
        return self.ask("WebDriver:ExecuteScript", script="return window.eval(arguments[0]);", args=[expression])["value"]

    def size(self, width, height):
        self._in_browser(VIEW, width, height)
        self.wait(f"innerWidth === {width} && innerHeight === {height}")

    def scheme(self, name):
        """Has the page in `light` or `dark` colours."""
        self._in_browser(SCHEME, {"dark": DARK, "light": LIGHT}[name])
        self.wait(f"matchMedia('(prefers-color-scheme: {name})').matches")

    def _act(self, kind, actions, **more):
        self.ask("WebDriver:PerformActions", actions=[{"type": kind, "id": kind, "actions": actions, **more}])

    def press(self, key):
        """A key of the keyboard, by its name or by the letter that it writes."""
        _, letter = KEYS.get(key, (None, key))
        self._act("key", [{"type": kind, "value": letter} for kind in ("keyDown", "keyUp")])

    def click_at(self, left, top):
        move = {"type": "pointerMove", "x": left, "y": top, "origin": "viewport"}
        self._act("pointer", [move, {"type": "pointerDown", "button": 0}, {"type": "pointerUp", "button": 0}],
                  parameters={"pointerType": "mouse"})

    def choose_file(self, selector, path):
        """Gives a file to an input that asks for one."""
        found = self.ask("WebDriver:FindElement", using="css selector", value=selector)["value"]
        self.ask("WebDriver:ElementSendKeys", id=next(iter(found.values())), text=path)

    def screenshot(self, path):
        """A picture of what is in sight."""
        put(path, self.ask("WebDriver:TakeScreenshot", full=False)["value"])


BROWSERS = (Chromium, Firefox)


def installed():
    """The browsers that are installed."""
    return [kind for kind in BROWSERS if kind.program()]


def put(path, letters):
    with open(path, "wb") as picture:
        picture.write(base64.b64decode(letters))
