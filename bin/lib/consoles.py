"""What serves the operator's console in a check, over a desk that can be killed and started again; and the page, as an
operator uses it."""
import contextlib
import os
import signal
import subprocess
import time

import kit
from lib import browsers, desks, proxies

SCRIPT = f"{kit.TOP}/bin/desk-console"
MANY = 100000
# a desk that waits as long as a file is there, and says at which port it listens
HELD = """\
#!/bin/sh
while [ -e {folder}/held ]; do sleep 0.05; done
echo "$4" > {folder}/port.new
mv {folder}/port.new {folder}/port
exec {desk} "$@"
"""


class Proxied:
    """The console by a proxy of this kind, within its `with`."""

    def __init__(self, kind, folder, book):
        self.name, self.book = kind.NAME, book
        self.server = desks.Server(book, MANY)
        self.proxy = kind(folder, self.server.port)
        self.url = self.proxy.url

    def __enter__(self):
        try:
            self.proxy.__enter__()
        except BaseException:
            self.server.kill()
            raise
        return self

    def __exit__(self, *_):
        self.proxy.__exit__()
        self.server.kill()

    def port(self):
        """Returns the port of the desk."""
        return self.server.port

    def kill(self):
        """Kills the desk."""
        self.server.kill()

    def starts(self):
        """Starts the desk again."""
        self.server = desks.Server(self.book, MANY, port=self.server.port)


class Alone:
    """The console by desk-console, within its `with`."""

    name = "desk-console"

    def __init__(self, folder, book):
        self.folder, self.book, self.process, self.url = folder, book, None, None

    def __enter__(self):
        path = f"{self.folder}/held-desk"
        with open(path, "w", encoding="utf-8") as it:
            it.write(HELD.format(folder=self.folder, desk=desks.DESK))
        os.chmod(path, 0o755)
        words = [SCRIPT, "--port", str(desks.free_port()), "--operator-key", desks.OPERATOR, self.book]
        how = {"stdout": subprocess.PIPE, "text": True, "env": {**os.environ, "DESK": path}}
        self.process = subprocess.Popen(words, **how)
        self.url = self.process.stdout.readline().strip().removesuffix("/console/")
        if not self.url:
            raise desks.Broken(f"desk-console ended with {self.process.wait()}")
        return self

    def __exit__(self, *_):
        if os.path.exists(f"{self.folder}/held"):
            os.remove(f"{self.folder}/held")
        self.process.send_signal(signal.SIGTERM)
        self.process.wait()
        self.process.stdout.close()

    def port(self):
        """Returns the port of the desk."""
        return int(desks.content(f"{self.folder}/port"))

    def desk(self):
        """Returns the process of the desk."""
        found = set()
        for thread in os.listdir(f"/proc/{self.process.pid}/task"):
            found |= set(desks.content(f"/proc/{self.process.pid}/task/{thread}/children").split())
        (only,) = found
        return int(only)

    def kill(self):
        """Kills the desk. The script starts another one, which waits."""
        desks.content(f"{self.folder}/port")
        with open(f"{self.folder}/held", "w", encoding="utf-8"):
            os.kill(self.desk(), signal.SIGKILL)

    def starts(self):
        """Lets the desk that waits begin, and waits until it listens."""
        os.remove(f"{self.folder}/held")
        end = time.monotonic() + browsers.SECONDS
        while time.monotonic() < end:
            with contextlib.suppress(OSError):
                desks.reply_on(desks.send(self.port(), desks.request("GET", "/", desks.OPERATOR)))
                return
            time.sleep(0.1)
        raise desks.Broken("desk-console starts no desk again")


def all_ways():
    """Returns what serves the console in each way, by the name of it, to be made of a folder and a book."""
    kinds = {it.NAME: (lambda folder, book, it=it: Proxied(it, folder, book)) for it in proxies.CONSOLES}
    return {**kinds, Alone.name: Alone}


class Page:
    """The console in a browser. Parts of it are named by CSS."""

    def __init__(self, browser, url, report):
        self.browser, self.url, self.report = browser, url, report

    def opens(self):
        """Opens the page."""
        self.browser.opens(f"{self.url}/console/")

    def until(self, what, test):
        """Waits until something is true, and counts that it was seen."""
        end = time.monotonic() + browsers.SECONDS
        while True:
            with contextlib.suppress(browsers.Unseen):
                if test():
                    break
            if time.monotonic() > end:
                raise browsers.Unseen(f"not seen in the page: {what}")
            time.sleep(0.1)
        self.sees(what, True, True)

    def sees(self, what, found, wanted):
        """Counts a thing that was looked at."""
        self.report.sees(f"{self.url}: {what}", found, wanted)

    def says(self, what, css, part):
        """Waits until a text is seen in an element."""
        self.until(what, lambda: part in self.browser.text(css))

    def rows(self, css):
        """Returns the texts of the cells of a table's rows, all of one moment."""
        return self.browser.runs("return [...document.querySelectorAll(arguments[0])].map((row) => "
                                 "[...row.cells].map((it) => it.textContent))", f"{css} tbody tr")

    def texts(self, css):
        """Returns the texts of elements."""
        return self.browser.runs("return [...document.querySelectorAll(arguments[0])].map((it) => it.textContent)", css)

    def many(self, css):
        """Returns how many elements there are."""
        return self.browser.runs("return document.querySelectorAll(arguments[0]).length", css)

    def is_shown(self, css):
        """Returns whether an element is seen."""
        return self.browser.runs("return document.querySelector(arguments[0]).checkVisibility()", css)

    def unlock(self, key):
        """Types the key."""
        self.browser.types("#key", key)
        self.browser.clicks("#key-form button")

    def fields(self, **fields):
        """Fills in the fields of the dialog, and goes on to the question."""
        for name, value in fields.items():
            self.fill(f"#form [name={name}]", value)
        self.browser.clicks("#form button.main")

    def fill(self, css, value):
        """Gives a field a value, as an operator does: a choice is chosen, and all else is typed."""
        if self.browser.runs("return document.querySelector(arguments[0]).tagName", css) == "SELECT":
            self.browser.clicks(f"{css} option[value='{value}']")
        else:
            self.browser.types(css, value)

    def command(self, name, **fields):
        """Begins a command, and goes on to its question. Nothing is sent before it."""
        self.browser.clicks(f"[data-command={name}]")
        if fields:
            self.fields(**fields)
        self.sees(f"what is told before {name} is sent", self.browser.text("#answer"), "")

    def sends(self, name, said, **fields):
        """Gives a command, which is done."""
        self.command(name, **fields)
        self.confirms(f"{name}: {said}", said)

    def confirms(self, what, said):
        """Says yes to the question, and waits until the answer says so."""
        self.until(f"a question, {what}", lambda: self.is_shown("#yes"))
        self.browser.clicks("#yes")
        self.says(what, "#outcome", said)
        self.sees(f"the dialog after {what}", self.is_shown("#dialog"), False)

    def looks_up(self, what, title, **fields):
        """Looks something up, and waits until it is shown."""
        self.fill("#look-what", what)
        for name, value in fields.items():
            self.fill(f"#look-form [name={name}]", value)
        # (the same may have been looked up before)
        self.browser.runs("document.getElementById('look-head').textContent = ''")
        self.browser.clicks("#look-form button")
        self.says(f"looked up: {title}", "#look-head", title)
        return self.rows("#look-table")

    def saved(self):
        """Returns what the table is saved as."""
        self.browser.runs("""window.blobs = []; const made = URL.createObjectURL;
            URL.createObjectURL = (it) => { window.blobs.push(it); return made(it); };""")
        self.browser.clicks("#look-save")
        return self.browser.waits_for("const done = arguments[0]; window.blobs.at(-1).text().then(done);")
