"""A headless Chromium that tests drive by its own protocol, over a pipe: no driver and no network is needed, only Debian's package chromium."""
import atexit
import base64
import contextlib
import json
import os
import select
import shutil
import signal
import subprocess
import tempfile
import time

CHROMIUM = shutil.which("chromium") or shutil.which("chromium-browser")
PATIENCE = 60.0


class Browser:
    """A browser of its own, with a folder that is thrown away."""

    def __init__(self):
        self.folder = tempfile.TemporaryDirectory(ignore_cleanup_errors=True)
        to_read, self.write = os.pipe()
        self.read, to_write = os.pipe()
        words = [CHROMIUM, "--headless=new", "--no-sandbox", "--disable-gpu", "--no-first-run", "--disable-background-networking",
                 "--disable-component-update", "--remote-debugging-pipe", f"--user-data-dir={self.folder.name}", "about:blank"]
        # The protocol is spoken on the descriptors 3 and 4.
        line = f'exec 8<&{to_read} 9>&{to_write}; exec "$@" 3<&8 4>&9'
        self.process = subprocess.Popen(["bash", "-c", line, "sh", *words], pass_fds=(to_read, to_write), stdin=subprocess.DEVNULL,
                                        stdout=subprocess.DEVNULL, stderr=subprocess.DEVNULL, start_new_session=True)
        os.close(to_read)
        os.close(to_write)
        self.rest, self.number, self.heard = b"", 0, []
        atexit.register(self.close)

    def close(self):
        """Ends it, if it has not been ended."""
        atexit.unregister(self.close)
        with contextlib.suppress(ProcessLookupError):
            os.killpg(self.process.pid, signal.SIGKILL)
        self.process.wait()
        os.close(self.read)
        os.close(self.write)
        self.folder.cleanup()

    def ask(self, method, session=None, **given):
        """What the browser answers to a command of its protocol."""
        self.number += 1
        asked = {"id": self.number, "method": method, "params": given, **({"sessionId": session} if session else {})}
        os.write(self.write, json.dumps(asked).encode() + b"\0")
        end = time.monotonic() + PATIENCE
        while True:
            message = self.message(end)
            if message.get("id") == self.number:
                if "error" in message:
                    raise AssertionError(f"{method}: {message['error']}")
                return message["result"]
            self.heard.append(message)

    def message(self, end):
        while b"\0" not in self.rest:
            if not select.select([self.read], [], [], max(0, end - time.monotonic()))[0]:
                raise AssertionError("the browser does not answer")
            part = os.read(self.read, 1 << 16)
            if not part:
                raise AssertionError("the browser has ended")
            self.rest += part
        text, _, self.rest = self.rest.partition(b"\0")
        return json.loads(text)

    def page(self, address, width=1280, height=900, is_dark=False):
        """A new tab with an address."""
        target = self.ask("Target.createTarget", url="about:blank")["targetId"]
        session = self.ask("Target.attachToTarget", targetId=target, flatten=True)["sessionId"]
        page = Page(self, target, session)
        page.look_as(width, height, is_dark)
        for domain in ("Page", "Runtime", "Log"):
            page.ask(f"{domain}.enable")
        page.ask("Page.navigate", url=address)
        return page


class Page:
    """A tab."""

    KEYS = {"Enter": 13, "ArrowLeft": 37, "ArrowUp": 38, "ArrowRight": 39, "ArrowDown": 40, "Escape": 27, "Tab": 9}

    def __init__(self, browser, target, session):
        self.browser, self.target, self.session = browser, target, session

    def ask(self, method, **given):
        return self.browser.ask(method, self.session, **given)

    def look_as(self, width, height, is_dark):
        """The size of the window, and whether dark colours are preferred."""
        self.ask("Emulation.setDeviceMetricsOverride", width=width, height=height, deviceScaleFactor=1, mobile=False)
        self.ask("Emulation.setEmulatedMedia", features=[{"name": "prefers-color-scheme", "value": "dark" if is_dark else "light"}])

    def run(self, text):
        """The value of an expression of JavaScript."""
        said = self.ask("Runtime.evaluate", expression=text, awaitPromise=True, returnByValue=True)
        if "exceptionDetails" in said:
            raise AssertionError(said["exceptionDetails"].get("exception", {}).get("description", said))
        return said["result"].get("value")

    def wait(self, text, seconds=PATIENCE):
        """Waits until an expression is true, and gives its value."""
        end = time.monotonic() + seconds
        while time.monotonic() < end:
            value = self.run(text)
            if value:
                return value
            time.sleep(0.03)
        raise AssertionError(f"not true within {seconds} s: {text}; the page says: {self.run('document.body.innerText')[:600]}")

    def middle(self, selector):
        """The middle of an element in the window, to which it is scrolled."""
        return self.wait(f"""(() => {{
            const one = document.querySelector({json.dumps(selector)});
            if (!one) return null;
            one.scrollIntoView({{block: "nearest"}});
            const box = one.getBoundingClientRect();
            return [box.x + box.width / 2, box.y + box.height / 2];
        }})()""")

    def mouse(self, kind, at, button="left", **given):
        self.ask("Input.dispatchMouseEvent", type=kind, x=at[0], y=at[1], button=button, clickCount=1, **given)

    def click(self, selector):
        at = self.middle(selector)
        self.mouse("mousePressed", at, buttons=1)
        self.mouse("mouseReleased", at)

    def drag(self, selector, target, button="left"):
        """Presses a button on an element, and lets it go on another one."""
        at, to = self.middle(selector), self.middle(target)
        held = {"button": button, "buttons": 2 if button == "right" else 1}
        self.mouse("mousePressed", at, **held)
        for part in (0.3, 0.7, 1):
            self.mouse("mouseMoved", [at[0] + part * (to[0] - at[0]), at[1] + part * (to[1] - at[1])], **held)
        self.mouse("mouseReleased", to, button=button)

    def write(self, text):
        """Writes a text by keys, a letter at a time, where the cursor is."""
        for letter in text:
            self.ask("Input.dispatchKeyEvent", type="char", text="\r" if letter == "\n" else letter)

    def reload(self):
        """Loads the page again."""
        self.run("delete document.body.dataset.ready")
        self.ask("Page.reload")
        self.wait("document.body?.dataset.ready")

    def key(self, name):
        given = {"key": name, "code": name, "windowsVirtualKeyCode": self.KEYS[name]}
        self.ask("Input.dispatchKeyEvent", type="rawKeyDown", **given)
        if name == "Enter":
            self.ask("Input.dispatchKeyEvent", type="char", text="\r", **given)
        self.ask("Input.dispatchKeyEvent", type="keyUp", **given)

    def type(self, selector, text):
        """Writes a text in place of that of a field."""
        self.run(f"(() => {{ const one = document.querySelector({json.dumps(selector)}); one.focus(); one.select(); }})()")
        self.ask("Input.insertText", text=text)

    def choose(self, selector, value):
        """Takes an entry of a list."""
        self.run(f"""(() => {{
            const one = document.querySelector({json.dumps(selector)});
            one.value = {json.dumps(value)};
            one.dispatchEvent(new Event("change", {{bubbles: true}}));
        }})()""")

    def text(self, selector):
        return self.run(f"document.querySelector({json.dumps(selector)}).textContent")

    def picture(self, path):
        """Keeps a picture of the whole page."""
        size = self.run("[innerWidth, document.documentElement.scrollHeight]")
        said = self.ask("Page.captureScreenshot", captureBeyondViewport=True, clip={"x": 0, "y": 0, "width": size[0], "height": size[1], "scale": 1})
        with open(path, "wb") as file:
            file.write(base64.b64decode(said["data"]))

    def faults(self):
        """What the page complained of in its log."""
        kinds = ("Runtime.exceptionThrown", "Log.entryAdded")
        return [message["params"] for message in self.browser.heard if message.get("sessionId") == self.session and message.get("method") in kinds]

    def close(self):
        self.browser.ask("Target.closeTarget", targetId=self.target)
