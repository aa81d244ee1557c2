"""A real Chromium without a window, driven over HTTP by its own driver, chromedriver (W3C WebDriver): no library of
another is needed."""
import base64
import contextlib
import http.client
import json
import os
import subprocess
import time

from lib import desks

TOOLS = ("chromium", "chromedriver")
# how long something may take until it is seen
SECONDS = 60
# the name under which the protocol keeps an element
ELEMENT = "element-6066-11e4-a52e-4f735466cecf"
WORDS = ["--headless=new", "--disable-gpu", "--disable-dev-shm-usage", "--window-size=1500,1000",
         "--ignore-certificate-errors", "--no-first-run", "--disable-background-networking"]
KEYS = {"enter": "\ue007", "escape": "\ue00c", "tab": "\ue004"}


def missing():
    """Returns the tools that are not installed."""
    return [it for it in TOOLS if not desks.installed(it)]


class Unseen(desks.Broken):
    """Something that must be seen in the page, and was not."""


class Browser:
    """A browser within its `with`, which keeps its files in a folder. Parts of a page are named by CSS."""

    def __init__(self, folder):
        self.folder, self.port, self.session = folder, desks.free_port(), None
        self.process = None

    def __enter__(self):
        env = {**os.environ, "HOME": self.folder, "XDG_CONFIG_HOME": self.folder, "XDG_CACHE_HOME": self.folder}
        quiet = {"stdout": subprocess.DEVNULL, "stderr": subprocess.DEVNULL}
        self.process = subprocess.Popen([desks.installed("chromedriver"), f"--port={self.port}"], env=env, **quiet)
        try:
            self.begin()
        except BaseException:
            self.__exit__()
            raise
        return self

    def begin(self):
        """Starts the browser, once its driver listens."""
        words = [*WORDS, *(["--no-sandbox"] if os.geteuid() == 0 else []), f"--user-data-dir={self.folder}/profile"]
        options = {"binary": desks.installed("chromium"), "args": words,
                   "prefs": {"download.default_directory": self.folder}}
        wanted = {"browserName": "chrome", "goog:chromeOptions": options, "unhandledPromptBehavior": "accept",
                  "goog:loggingPrefs": {"browser": "ALL", "performance": "ALL"}, "acceptInsecureCerts": True}
        for _ in range(SECONDS * 10):
            with contextlib.suppress(OSError):
                said = self.asked("POST", "/session", {"capabilities": {"alwaysMatch": wanted}})
                self.session = said["sessionId"]
                return
            time.sleep(0.1)
        raise desks.Broken("chromedriver does not listen")

    def __exit__(self, *_):
        with contextlib.suppress(OSError, desks.Broken, http.client.HTTPException):
            if self.session:
                self.asked("DELETE", f"/session/{self.session}")
        self.process.terminate()
        self.process.wait()

    def asked(self, method, path, body=None):
        """Returns the value of the driver's reply."""
        link = http.client.HTTPConnection("127.0.0.1", self.port, timeout=2 * SECONDS)
        with contextlib.closing(link):
            sent = None if body is None else json.dumps(body)
            link.request(method, path, sent, {"Content-Type": "application/json"})
            got = link.getresponse()
            value = json.loads(got.read())["value"]
        if got.status != 200:
            raise Unseen(f"the browser: {value['error']}: {value['message'].splitlines()[0]}")
        return value

    def does(self, what, **words):
        """Returns what the browser answers to a command of its session."""
        return self.asked("POST", f"/session/{self.session}/{what}", words)

    def opens(self, url):
        """Opens an address."""
        self.does("url", url=url)

    def runs(self, script, *words):
        """Returns what a script of the page returns."""
        return self.does("execute/sync", script=script, args=list(words))

    def waits_for(self, script, *words):
        """Returns what a script of the page gives to the call that is its last word."""
        return self.does("execute/async", script=script, args=list(words))

    def of_chromium(self, name, **words):
        """Returns what a command of Chromium's own protocol answers."""
        return self.does("goog/cdp/execute", cmd=name, params=words)

    def path(self, css):
        """Returns the path of the first element, as the protocol names it."""
        return f"element/{self.does('element', using='css selector', value=css)[ELEMENT]}"

    def clicks(self, css):
        """Clicks at an element, in the middle of what is seen."""
        self.runs("document.querySelector(arguments[0]).scrollIntoView({ block: 'center' })", css)
        self.does(f"{self.path(css)}/click")

    def types(self, css, text):
        """Types a text at an element, in the place of what stands there."""
        it = self.path(css)
        if not css.endswith("[type=file]"):
            self.does(f"{it}/clear")
        self.does(f"{it}/value", text=text)

    def presses(self, *keys):
        """Presses keys, one after another, wherever the focus is."""
        said = [{"type": kind, "value": KEYS[it]} for it in keys for kind in ("keyDown", "keyUp")]
        self.does("actions", actions=[{"type": "key", "id": "keys", "actions": said}])

    def text(self, css):
        """Returns the text of an element, as it is seen."""
        return self.asked("GET", f"/session/{self.session}/{self.path(css)}/text")

    def complaints(self):
        """Returns what the browser complained of, but that a reply was a refusal or did not come."""
        said = [it["message"] for it in self.does("se/log", type="browser")]
        return [it for it in said if "Failed to load resource" not in it]

    def requests(self):
        """Returns the method, the address and the body of each request that was made since this was asked last."""
        said = [json.loads(it["message"])["message"] for it in self.does("se/log", type="performance")]
        sent = [it["params"]["request"] for it in said if it["method"] == "Network.requestWillBeSent"]
        return [(it["method"], it["url"], it.get("postData")) for it in sent]

    def picture(self, path, **clip):
        """Leaves a picture of the page, or of a part of it, as a file."""
        data = self.of_chromium("Page.captureScreenshot", format="png", **({"clip": clip} if clip else {}))["data"]
        with open(path, "wb") as it:
            it.write(base64.b64decode(data))

    def print_out(self, path):
        """Leaves the printed page as a file."""
        data = self.of_chromium("Page.printToPDF", preferCSSPageSize=True)["data"]
        with open(path, "wb") as it:
            it.write(base64.b64decode(data))
