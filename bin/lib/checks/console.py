"""Drives the operator's console in a real Chromium, through nginx, Caddy and `desk-console`, over a running desk.

In each way an operator's day is done: a key that is wrong, a day opened, a gridlock that banks send and that is seen in
words, in the table and in the picture, a close that is refused and explained, the desk killed and started again in the
middle of a posting, the gridlock resolved and gone, an order file and a withdrawal in a bank's name, what is looked up
and saved, the close, an automatic day, and the page locked. Each figure is compared with what is known of the book, or
with what the program prints. Then the page is seen with a hundred banks, and the time that the desk works for it is
measured. Each request that it made must be one of docs/openapi.yaml, and so must all that the page's own list of
requests names, which is compared without a browser; the words of its refusals must be those of `desk explain`.
`--pictures FOLDER` leaves pictures, and `--only WAY` goes one way alone. Needs nginx, Caddy and `openssl`; without
`chromium` and `chromedriver` it says that the page was not opened.

Shows: that an operator's day can be done with the page, in Chromium, through nginx, Caddy and desk-console, and that
the page asks for what the description has.
Cannot show: other browsers, a screen reader, or whether a person finds what is there.
"""
import json
import os
import re
import signal
import time
import urllib.parse

import kit
from lib import browsers, console_requests, consoles, desks, gridlocks, proxies, stated
from lib.checks import openapi

PAGE = "the page in a browser"
PARTS = {PAGE: "chromedriver"}
NEEDS = ("nginx", "caddy", "openssl")
FOLDER = f"{kit.TOP}/console"
# how many lines the page has fewer than, in all its files
LINES = 1200
NARROW, WIDE = 390, 1500
# the height of the part of the page that documents show, and how much smaller it is there
SHOWN, SCALE = 1040, 0.6
# the least pause between two requests that nobody asked for, in seconds, and by how much it exceeds the last reply
PAUSE, SHARE = 2, 10
SECONDS_WATCHED = 15
# what has each request take some time longer, and keeps when it began and ended
SLOW = """window.times = []; const sent = window.fetch;
    window.fetch = async (...it) => {
        const time = [performance.now(), Infinity];
        window.times.push(time);
        await new Promise((does) => setTimeout(does, 400));
        return sent(...it).finally(() => { time[1] = performance.now(); });
    };"""
# from which bank to which each arrow of the picture goes, with its title, and what is said of each bank
DRAWN = """const at = (x, y) => `${Math.round(x)} ${Math.round(y)}`, all = (css) => [...document.querySelectorAll(css)];
    const said = new Map(all("#graph .node").map((it) => {
        const { x, y, width, height } = it.getBBox(), code = it.nextElementSibling;
        return [at(x + width / 2, y + height / 2), [code.textContent, code.nextElementSibling.textContent]];
    }));
    return [all("#graph .arrow").map((it) => {
        const ends = [0, it.getTotalLength()].map((far) => it.getPointAtLength(far)).map(({ x, y }) => at(x, y));
        return `${ends.map((it) => said.get(it)?.[0]).join(" to ")}: ${it.textContent.split(": ")[0]}`;
    }), [...said.values()]];"""
# what the page's functions make of amounts beyond 2^53, and which picture of a ring of 16 or 17 banks is drawn
EXACT = """const [done] = arguments, at = `${location.origin}/console/`;
    const ring = (many) => [...Array(many).keys()].map((i) => ({ code: `B${i}`, queued: 1, queued_value: 1n, short: 0n,
        settling: 1, first: { to: `B${(i + 1) % many}` }, receivers: [{ to: `B${(i + 1) % many}`, queued: 1,
        queued_value: 1n }] }));
    Promise.all([import(`${at}values.js`), import(`${at}graph.js`)]).then(([it, { draw }]) => {
        const svg = document.getElementById("graph").cloneNode(true), cents = it.centsOf("90 071 992 547 409.93");
        done([it.shown(cents), it.written({ cents: -cents, reference: "P-1" }), it.shown(it.read(
            '{"balance":-10900000000000001}', "balance").balance), it.csvOf({ heads: ["a"], rows: [[cents]] }),
            draw(svg, ring(16)), draw(svg, ring(17))]);
    }, (why) => done([String(why)]));"""
WAITING = "BETA", "2024-03-08"


def options(words):
    ways = sorted(consoles.all_ways())
    words.add_argument("--only", choices=ways, metavar="WAY", help=f"one way alone: {', '.join(ways)}")
    words.add_argument("--pictures", metavar="FOLDER", help="leave pictures of the page there")


def shown(cents):
    """Returns cents as the page shows them."""
    whole, part = divmod(abs(cents), 100)
    return ("\u2212" if cents < 0 else "") + f"{whole:,}".replace(",", "\u202f") + f".{part:02}"


def words():
    """Returns what the program says of each refusal: by its number the name, the meaning, and what is to be done."""
    found = {}
    for part in re.split(r"\n(?=\d\d )", desks.desk("explain").strip()):
        lines = re.sub(r"\n {6}", " ", part).split("\n")
        number, name = lines[0].split()
        said = {it.split(": ", 1)[0].strip(): it.split(": ", 1)[1] for it in lines[1:]}
        found[int(number)] = {"name": name, "means": said["means"], "todo": said["do"]}
    return found


def files(report):
    """The page has no more lines than it may have, its requests are those described, and its words are the desk's."""
    texts = {it: stated.content(f"{FOLDER}/{it}") for it in sorted(os.listdir(FOLDER))}
    many = sum(len(it.splitlines()) for it in texts.values())
    report.sees(f"{many} lines of the page, fewer than {LINES}", many < LINES, True)
    described = openapi.Description(stated.content(f"{kit.TOP}/docs/openapi.yaml"))
    console_requests.compare(texts["routes.js"], described, report.sees)
    said = re.findall(r"^  (\d+): (\{.*\}),$", texts["refusals.js"], re.M)
    found = {int(number): json.loads(it) for number, it in said}
    report.sees("refusals in the page's words", found, words())


class Day:
    """An operator's day with the page, in one way."""

    def __init__(self, page, served, pictures):
        self.page, self.served, self.pictures, self.browser = page, served, pictures, page.browser
        self.words = words()

    def explains(self, what, css, number):
        """Waits until a refusal is explained by the words of the desk."""
        said = self.words[number]
        parts = [f"Refused: {number} {said['name']}.", *(said[it].replace("`", "") for it in ("means", "todo"))]
        self.page.until(f"{what}: {number}", lambda: all(it in self.browser.text(css) for it in parts))

    def picture(self, name, width=WIDE):
        """Leaves a picture of the whole page in this width, if pictures are wanted. It is never wider."""
        size = {"width": width, "height": 900, "deviceScaleFactor": 1, "mobile": False}
        for _ in range(2):
            self.browser.of_chromium("Emulation.setDeviceMetricsOverride", **size)
            time.sleep(0.3)
            size["height"] = self.browser.runs("return document.documentElement.scrollHeight")
        is_within = self.browser.runs("return document.documentElement.scrollWidth") <= width
        self.page.sees(f"the page is no wider than {width}: {name}", is_within, True)
        if self.pictures:
            self.browser.picture(f"{self.pictures}/{name}.png")
        self.browser.of_chromium("Emulation.clearDeviceMetricsOverride")

    def keeps_nothing(self):
        """The browser keeps no key: in no store, no cookie, and not in the field in which it was typed."""
        kept = self.browser.runs("const { value } = document.getElementById('key'); "
                                 "return [localStorage.length, sessionStorage.length, document.cookie, value]")
        self.page.sees("what the browser keeps", kept, [0, 0, "", ""])

    def wrong_key(self):
        """A wrong key is refused in words, and the right one shows the book."""
        self.page.unlock("0" * 32)
        self.explains("a wrong key", "#locked", 68)
        self.page.unlock(desks.OPERATOR)
        self.page.until("all banks", lambda: len(self.page.rows("#banks-table")) == len(gridlocks.BANKS))
        self.keeps_nothing()
        found = {row[0]: row[2:5] for row in self.page.rows("#banks-table")}
        for code, cents in gridlocks.balances().items():
            credit = gridlocks.cents(gridlocks.BANKS[code][2])
            # (while the desk is closed the floor is 0)
            self.page.sees(f"the account of {code}", found[code], [shown(cents), shown(credit), shown(cents)])
        self.page.says("the day is closed", "#day", f"Monday {gridlocks.FIRST} CLOSED")

    def opens(self):
        """A Saturday is refused in words, a date that is far away is warned of, and the day is opened."""
        self.page.command("open", date="2024-03-09", kind="plain")
        self.page.says("the question has the date", "#says", "Open Saturday 2024-03-09 as a plain day.")
        self.browser.clicks("#yes")
        self.explains("a Saturday", "#answer", 16)
        self.browser.clicks("#back")
        self.page.fields(date="2042-03-05")
        self.page.says("a mistyped date is warned of", "#warns", "6575 days after the last business date")
        self.browser.clicks("#back")
        self.page.fields(date=gridlocks.SECOND)
        self.page.confirms("the day is opened", "The day is open.")
        self.page.says("the day is a plain one", "#day", f"Tuesday {gridlocks.SECOND} OPEN plain day")

    def sees_the_gridlock(self):
        """The gridlock is seen in words, in the table and in the picture."""
        gridlocks.send(self.served.port())
        self.page.says("what would settle", "#waits-said", f"would settle {gridlocks.SETTLING} orders")
        rings = "; ".join(", ".join(it) for it in gridlocks.RINGS)
        self.page.says("the rings", "#waits-said", f"In rings: {rings}.")
        rows = {row[0]: row[1:] for row in self.page.rows("#queues-table")}
        short = [shown(gridlocks.cents(2000)), shown(gridlocks.cents(1500)), "stays: no queued order would pay it"]
        self.page.sees("the queue of KAPPA", rows["KAPPA"][2:5], short)
        self.page.sees("the queue of ETA", rows["ETA"][4], f"1 of 2 would settle, {shown(gridlocks.cents(700))}")
        self.page.sees("the queue of ALFA", (rows["ALFA"][1], "EPSI" in rows["ALFA"][6]), ("BETA", True))
        drawn = [self.page.many(f"#graph {it}") for it in (".code", ".arrow.settles", ".arrow.first", ".arrow.later")]
        self.page.sees("banks and arrows of the picture", drawn, [12, 10, 3, 3])
        pairs = [f"{sender} to {to}: {shown(gridlocks.cents(amount))} in 1" for sender, to, amount in gridlocks.ORDERS]
        self.page.sees("what the arrows say", sorted(self.page.texts("#graph title")), sorted(pairs))
        arrows, said = self.browser.runs(DRAWN)
        self.page.sees("arrows between other banks", [it for it in arrows if len(set(it.split(": "))) > 1], [])
        said = {code: it for code, it in said if code in ("ALFA", "KAPPA", "OMEGA")}
        wanted = {"ALFA": "settles 2 of 2", "KAPPA": f"short {shown(gridlocks.cents(1500))}", "OMEGA": "no queue"}
        self.page.sees("what is said of banks", said, wanted)
        # (while the day is open the floor is minus the credit limit)
        found = {row[0]: row[4] for row in self.page.rows("#banks-table")}
        wanted = {code: shown(cents + gridlocks.cents(gridlocks.BANKS[code][2]))
                  for code, cents in gridlocks.balances().items()}
        self.page.sees("the headroom of each bank", found, wanted)

    def is_exact(self):
        """Amounts beyond 2^53 stay whole, and a picture of more than 16 banks is a matrix."""
        cents = "9007199254740993"
        wanted = [shown(int(cents)), f'{{"cents":-{cents},"reference":"P-1"}}', shown(-10900000000000001),
                  f"a\n{cents}\n", "circle", "matrix"]
        self.page.sees("amounts and pictures", self.browser.waits_for(EXACT), wanted)
        self.page.command("credit")
        self.page.fields(code="ALFA", amount="123456789012345.00")
        self.page.sees("an amount of too many digits", self.page.many("#form [name=amount]:invalid"), 1)
        self.browser.clicks("#form .cancel")
        self.page.command("post", code="OMEGA", way="-1", amount="1 234.50", reference="P-90")
        self.page.says("money is taken out", "#says", "Take 1\u202f234.50 out of the account of OMEGA")
        self.page.says("what is sent", "#wire", '{"cents":-123450,"code":"OMEGA","reference":"P-90"}')
        self.browser.clicks("#confirm .cancel")

    def looks(self):
        """What the page looks like: wide, narrow, in the dark and on paper."""
        self.picture("desktop")
        self.picture("narrow", NARROW)
        for value in ("dark", "light"):
            features = [{"name": "prefers-color-scheme", "value": value}]
            self.browser.of_chromium("Emulation.setEmulatedMedia", features=features)
            if value == "dark":
                self.picture("dark")
        if self.pictures:
            self.browser.print_out(f"{self.pictures}/print.pdf")
            self.of_documents()

    def of_documents(self):
        """Leaves the picture that documents show: the upper part of the page, smaller."""
        size = {"width": WIDE, "height": SHOWN}
        self.browser.of_chromium("Emulation.setDeviceMetricsOverride", deviceScaleFactor=1, mobile=False, **size)
        self.browser.runs("scrollTo(0, 0)")
        self.browser.picture(f"{self.pictures}/console.png", x=0, y=0, scale=SCALE, **size)
        self.browser.of_chromium("Emulation.clearDeviceMetricsOverride")

    def by_the_keyboard(self):
        """What takes the focus has a name, the picture its sentence, and the keyboard alone is enough."""
        nodes = self.browser.of_chromium("Accessibility.getFullAXTree")["nodes"]
        named = [(it["role"]["value"], it.get("name", {}).get("value", "")) for it in nodes
                 if any(of["name"] == "focusable" and of["value"].get("value") for of in it.get("properties", []))]
        nameless = [it for it in named if not it[1] and it[0] != "RootWebArea"]
        self.page.sees("what takes the focus and has no name", (len(named) > 30, nameless), (True, []))
        images = [it["name"]["value"] for it in nodes if it["role"]["value"] == "image"]
        sentence = f"A resolution would settle {gridlocks.SETTLING} orders"
        self.page.sees("the name of the picture", any(sentence in it for it in images), True)
        self.browser.runs("document.querySelector('[data-command=credit]').focus()")
        self.browser.presses("enter")
        focus = "const it = document.activeElement; return it.name || it.dataset.command;"
        self.page.until("the keyboard opens a dialog", lambda: self.browser.runs(focus) == "code")
        self.browser.presses("escape")
        self.page.until("the focus comes back", lambda: self.browser.runs(focus) == "credit")

    def close_is_refused(self):
        """A close that comes too early is warned of, refused, and explained."""
        self.page.command("close")
        self.page.says("the page warns", "#warns", f"{len(gridlocks.ORDERS)} queued orders")
        self.page.says("the page says why", "#warns", "The day is not cut off")
        self.browser.clicks("#yes")
        self.explains("an early close", "#answer", 14)
        if self.pictures:
            self.browser.picture(f"{self.pictures}/refusal.png")
        self.browser.clicks("#confirm .cancel")

    def desk_is_killed(self):
        """The desk is killed in the middle: the page says so, sends the same posting again, and goes on."""
        self.served.kill()
        self.page.says("why the figures are stale", "#alarm", "502")
        self.page.sees("the title of a stale page", self.browser.runs("return document.title")[:5], "STALE")
        self.page.sees("the marks of a stale page", (self.page.many("body.stale"), self.browser.text("#fresh")[:5]),
                       (1, "STALE"))
        self.picture("stale")
        self.page.command("post", code="KAPPA", way="1", amount="1500000.00", reference="P-100")
        self.page.says("old figures are warned of", "#warns", "The figures of this page are")
        self.browser.clicks("#yes")
        self.page.says("nobody knows whether it acted", "#answer", "It is not known whether the command acted.")
        self.page.sees("what is offered", self.browser.text("#yes"), "Send the same again")
        # (the dialog can be left, and the command is in the journal)
        self.browser.clicks("#later")
        self.served.starts()
        self.browser.clicks("#journal-rows button")
        self.page.says("the question again", "#says", f"Pay {shown(gridlocks.cents(1500))} into the account of KAPPA")
        self.page.confirms("the same posting again", f"Posted as number {len(gridlocks.BANKS) + 1}.")
        self.page.until("the figures are fresh", lambda: not self.page.is_shown("#alarm"))
        self.page.sees("the title", "STALE" in self.browser.runs("return document.title"), False)
        self.page.sees("what can be sent again", self.page.many("#journal-rows button"), 0)

    def resolves(self):
        """The gridlock is resolved, is gone from the picture, and what was settled can be looked up and saved."""
        self.page.says("the posting is seen", "#waits-said", f"{gridlocks.SETTLING_WITH_KAPPA} orders")
        self.page.sends("resolve", f"Settled {gridlocks.SETTLING_WITH_KAPPA} orders of ")
        def waiting():
            return {row[0] for row in self.page.rows("#queues-table")}

        self.page.until("the ring is gone", lambda: not waiting() & set(gridlocks.RINGS[0]))
        self.page.says("nothing would settle", "#waits-said", "would settle nothing now")
        self.page.sees("arrows that would settle", self.page.many("#graph .arrow.settles"), 0)
        self.browser.clicks("#outcome button")
        self.page.says("what it settled", "#look-head", f"Orders of {gridlocks.SECOND}")
        rows = self.page.rows("#look-table")
        self.page.sees("orders of the mark", [row[6] for row in rows], ["settled"] * gridlocks.SETTLING_WITH_KAPPA)
        self.picture("resolved")
        self.page.sends("resolve", "Nothing could settle")

    def in_a_banks_name(self, folder):
        """An order file is sent in a bank's name, and an order of it that is held is withdrawn."""
        sender, due = WAITING
        path = f"{folder}/beta.csv"
        gridlocks.write(path, "reference,to,amount\nB-50,IOTA\n")
        self.page.command("batch", code=sender, file=path)
        self.page.says("a file of another form", "#says", "its rows cannot be read by this page")
        self.browser.clicks("#yes")
        self.explains("a row of another form", "#answer", 41)
        self.browser.clicks("#confirm .cancel")
        gridlocks.write(path, f"reference,to,amount,due\nB-50,IOTA,1250,\nB-51,IOTA,777,{due}\nB-52,BETA,5,\n")
        self.page.command("batch", code=sender, file=path)
        name = gridlocks.BANKS[sender][0]
        self.page.says("what is sent", "#says", f"beta.csv as the orders of {sender} {name}: 3 orders of 20.32.")
        self.page.confirms("the order file", "3 rows: 1 settled, 1 held, 1 refused.")
        rows = self.page.rows("#look-table")
        results = [["B-50", "settled"], ["B-51", "held"], ["B-52", "refused"]]
        self.page.sees("the result file", [row[:2] for row in rows], results)
        held = self.page.looks_up("held", f"Orders of {sender} that are held", code=sender)
        self.page.sees("what is held", [row[:1] + row[2:5] for row in held], [[due, "B-51", "IOTA", "7.77"]])
        self.page.until("the status has it", lambda: "held for later days 1" in self.browser.text("#desk"))
        self.browser.clicks("#look-table button")
        self.page.says("a withdrawal is asked", "#says", f"Withdraw the order B-51 of {sender}")
        self.page.confirms("the withdrawal", "Withdrawn: it was number")
        (order,) = self.page.looks_up("order", f"Order B-51 of {sender}", code=sender, reference="B-51")
        self.page.sees("the order", order[1:4] + order[6:7], ["B-51", "IOTA", "7.77", "withdrawn"])
        self.page.fill("#look-form [name=reference]", "NONE")
        self.browser.clicks("#look-form button")
        self.explains("an unknown order", "#look-answer", 9)

    def ends(self):
        """A close with balances below 0 is refused and explained, what lacks is posted, and the day is closed."""
        self.page.sends("credit", "The limit is set.", code="LAMDA", amount="2500.00")
        below = [(row[0], row[6]) for row in self.page.rows("#banks-table") if row[6] != "0.00"]
        self.page.sees("banks that lack money", [code for code, _ in below], ["KAPPA", "ZETA"])
        self.page.sends("cutoff", "The day is cut off.")
        self.page.command("close")
        self.browser.clicks("#yes")
        self.explains("a close with balances below 0", "#answer", 19)
        self.page.says("the first of them", "#answer", "KAPPA is the first of 2.")
        self.browser.clicks("#confirm .cancel")
        for number, (code, lacking) in enumerate(below, len(gridlocks.BANKS) + 2):
            self.browser.clicks(f"#banks-table tr[data-key={code}] button")
            self.page.sees("the bank of the dialog", self.browser.runs("return document.forms.form.code.value"), code)
            self.page.fields(amount=lacking, reference=f"P-{number}")
            self.page.confirms(f"what {code} lacks", f"Posted as number {number}.")
        self.page.sends("close", "The day is closed. 3 queued orders were rejected.")
        self.page.says("nobody waits", "#waits-said", "Nobody waits")
        self.page.until("the day's marks", lambda: "marks 2" in self.browser.text("#figures"))
        self.browser.clicks("#outcome button")
        self.page.says("rejected orders", "#look-head", f"Orders of {gridlocks.SECOND}")
        states = {row[6] for row in self.page.rows("#look-table")}
        self.page.sees("rejected orders", (len(self.page.rows("#look-table")), states), (3, {"rejected"}))

    def looked_up(self):
        """What is looked up of dates, and what is saved. It is compared with the program once the desk has ended."""
        date, found = gridlocks.SECOND, {}
        self.page.looks_up("orders", f"Orders of {date}", date=date)
        found["orders", date] = self.page.saved()
        marks = self.page.looks_up("marks", f"Marks of {date}", date=date)
        found["marks", date] = self.page.saved()
        self.page.sees("marks", [row[:2] for row in marks][0][1], str(gridlocks.SETTLING_WITH_KAPPA))
        self.page.looks_up("statement", f"Statement of ALFA, {date}", code="ALFA", date=date)
        found["statement", "ALFA", date] = self.printed("kind,number,reference,other,amount,mark")
        self.page.looks_up("report", f"Report of {gridlocks.FIRST}", date=gridlocks.FIRST)
        found["report", gridlocks.FIRST] = text = self.printed("bank,posted,sent,received")
        self.page.fill("#look-what", "orders")
        states = [line.split()[0] for line in text.splitlines() if len(line.split()) == 3]
        self.page.sees("states of orders", self.page.texts("#look-form [name=state] option"), ["all", *states])
        self.page.sees("the day's own figures", "settled 14" in self.browser.text("#figures"), True)
        self.page.looks_up("queue", "Queue of ALFA", code="ALFA")
        self.page.says("an empty queue", "#look-many", "There is none.")
        self.page.fill("#look-what", "report")
        self.page.fill("#look-form [name=date]", "2024-02-30")
        self.browser.clicks("#look-form button")
        self.explains("a date that does not exist", "#look-answer", 35)
        return found

    def printed(self, heads):
        """Returns a text as the desk prints it. Its table is saved with these heads, and with amounts in cents."""
        text = self.browser.runs("return document.getElementById('look-text').textContent")
        rows = [line.split() for line in text.splitlines()[1:]]
        rows = [",".join(re.sub(r"\.(\d\d)$", r"\1", it).lstrip("0") or "0" if "." in it else it for it in row)
                for row in rows if len(row) == len(heads.split(","))]
        self.page.sees("the saved table", self.page.saved(), "".join(f"{it}\n" for it in [heads, *rows]))
        return text

    def is_automatic(self):
        """The next day is an automatic one, of which the page tells."""
        self.page.sends("open", "The day is open.", date=gridlocks.THIRD, kind="automatic")
        self.page.says("an automatic day", "#day", f"Wednesday {gridlocks.THIRD} OPEN automatic day")
        self.page.until("the journal", lambda: self.page.many("#journal-rows li") > 10)

    def pauses(self):
        """Of what nobody asked for, one request is made at a time, none within two seconds of another, and none before
        ten times has passed what the last reply took."""
        self.browser.runs("performance.clearResourceTimings()")
        time.sleep(SECONDS_WATCHED)
        times = self.browser.runs("return performance.getEntriesByType('resource').map((it) => [it.startTime, "
                                  "it.responseEnd])")
        self.rests(times, 0)
        self.browser.runs(SLOW)
        time.sleep(SECONDS_WATCHED)
        self.rests(self.browser.runs("return window.times.filter((it) => it[1] !== Infinity)"), SHARE)

    def rests(self, times, share):
        """The page pauses between requests of these times, in milliseconds."""
        pauses = [(after[0] - before[1]) / 1000 - max(PAUSE, share * (before[1] - before[0]) / 1000)
                  for before, after in zip(times, times[1:])]
        self.page.sees("requests that were watched", len(times) > 2, True)
        self.page.sees("pauses that are too short", [it for it in pauses if it < -0.02], [])

    def locks(self):
        """A page that is locked, or left, has neither key nor figures."""
        whole = self.browser.runs("return document.documentElement.outerHTML")
        self.page.sees("the key in the page", desks.OPERATOR in whole, False)
        self.keeps_nothing()
        self.browser.clicks("#lock")
        self.page.until("a locked page", lambda: not self.page.rows("#banks-table") and self.page.is_shown("#unlock"))
        self.keeps_nothing()
        self.page.unlock(desks.OPERATOR)
        self.page.until("it is unlocked", lambda: len(self.page.rows("#banks-table")) == len(gridlocks.BANKS))
        self.browser.does("refresh")
        self.page.until("a page that is read again", lambda: self.page.is_shown("#key"))

    def done(self, folder):
        """Does the whole day. Returns what was read of the desk, by the words of a command that prints the same."""
        self.page.opens()
        self.wrong_key()
        self.opens()
        self.sees_the_gridlock()
        self.is_exact()
        self.looks()
        self.by_the_keyboard()
        self.close_is_refused()
        self.desk_is_killed()
        self.resolves()
        self.in_a_banks_name(folder)
        self.ends()
        found = self.looked_up()
        self.is_automatic()
        self.pauses()
        self.locks()
        return found


def requests(browser, url, report):
    """Each request that the page made for the desk is one that docs/openapi.yaml has. Returns their number."""
    described = openapi.Description(stated.content(f"{kit.TOP}/docs/openapi.yaml"))
    made = [it for it in browser.requests() if "/desk/" in it[1]]
    for method, address, body in made:
        path = urllib.parse.urlsplit(address).path
        value = json.loads(body) if body and body.startswith("{") else None
        report.sees(f"{url}: {method} {path} {body}", console_requests.faults(described, method, path, value), [])
    first, again = [body for _, address, body in made if address.endswith("/desk/post")][:2]
    report.sees(f"{url}: the posting that was not answered, sent again", again, first)
    return len(made)


def day(way, make, given, report):
    """Does an operator's day in one way."""
    before = report.right, report.wrong
    with desks.room() as folder:
        book = f"{folder}/bank.desk"
        gridlocks.make(book)
        with browsers.Browser(folder) as browser:
            with make(folder, book) as served:
                page = consoles.Page(browser, served.url, report)
                found = Day(page, served, given.pictures).done(folder)
                report.sees(f"{way}: what the browser complained of", browser.complaints(), [])
                many = requests(browser, way, report)
        for (command, *rest), text in found.items():
            report.sees(f"{way}: {command} {' '.join(rest)}", text, desks.desk(command, book, *rest))
    report.finds(f"{way}: a day of {many} requests of the page: {report.right - before[0]} as they must be, "
                 f"{report.wrong - before[1]} not")


def share_of_time(desk):
    """Returns for which part of some seconds the process of a desk, of which a page is seen, used a processor."""
    begin, before = time.monotonic(), desks.processor_time(desk)
    time.sleep(2 * SECONDS_WATCHED)
    return (desks.processor_time(desk) - before) / (time.monotonic() - begin)


def crowd(given, report):
    """A hundred banks, each with an order to each other one: the greatest reading, as a matrix."""
    with desks.room() as folder:
        book = f"{folder}/bank.desk"
        gridlocks.make_crowd(book)
        with browsers.Browser(folder) as browser, consoles.Alone(folder, book) as served:
            page = consoles.Page(browser, served.url, report)
            page.opens()
            page.unlock(desks.OPERATOR)
            many = len(gridlocks.CROWD)
            page.until("a hundred queues", lambda: len(page.rows("#queues-table")) == many)
            page.sees("cells of the matrix", page.many("#graph .cell.settles"), many * (many - 1))
            Day(page, served, given.pictures).picture("matrix")
            share = share_of_time(served.desk())
            os.kill(served.desk(), signal.SIGSTOP)
            page.until("figures that are too old", lambda: page.many("body.stale") == 1)
            page.says("why", "#alarm", "A reply is awaited.")
            os.kill(served.desk(), signal.SIGCONT)
            page.until("figures that are new", lambda: page.many("body.stale") == 0)
    report.finds(f"{many} banks with {many * (many - 1)} orders: seen; meanwhile the desk used a processor for "
                 f"{share:.2%} of the time")
    report.sees("a share below a tenth", share < 0.1, True)


def run(given, report):
    if given.pictures:
        os.makedirs(given.pictures, exist_ok=True)
    for kind in proxies.CONSOLES:
        report.finds(kind.version())
    files(report)
    if browsers.missing():
        report.sums(f"{PAGE}: skipped, since there is no {', '.join(browsers.missing())}; the rest: "
                    f"{report.right} things as they must be, {report.wrong} not")
        return
    ways = {name: make for name, make in consoles.all_ways().items() if given.only in (None, name)}
    for way, make in ways.items():
        day(way, make, given, report)
    crowd(given, report)
    report.sums(f"{len(ways)} ways: {report.right} things as they must be, {report.wrong} not")
