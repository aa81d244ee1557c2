"""Has one bank ask for statements without end, through nginx and through Caddy, while another sends orders.

The book has a day of many orders, so that a statement takes the desk some tenths of a second. One bank asks for it on
many connections at once, again as soon as there is a reply; another sends orders one after another, each of which must
be answered within half a second. Statements must be answered too, whole. With the limits taken out of the
configurations an order must take longer, so that it is they that keep it short. Of many orders that one bank sends at
once through nginx each is answered, or refused with 429; of statements more are refused. `--orders` gives the day fewer
orders. Needs `nginx`, `caddy` and `openssl`.

Shows: that with the limits of deploy/ an order of one bank does not wait for the statements of another.
Cannot show: a load of many banks, and other machines.
"""
import collections
import statistics
import threading
import time

from lib import desks, proxies
from lib.checks import proxy

NEEDS = ("nginx", "caddy", "openssl")
ROWS, MANY = 500, 1000000
# how many connections ask for statements, how many orders are sent meanwhile, and how long each may take, in seconds
ASKING, SENT, LONGEST = 12, 10, 0.5
PAUSE = 0.1
# how many requests one bank sends at once
AT_ONCE = 30
STATEMENT = f"/statements/{desks.DATE}"
# what is taken out of a configuration, to see that it is what limits
UNLIMITED = {
    "nginx": {it: "" for it in ("limit_conn desk_long 2;", "limit_req zone=desk_readers burst=20;",
                                "limit_req zone=desk_statement burst=5;", "limit_req zone=desk_statements burst=100;")},
    "caddy": {"unhealthy_request_count 1": ""},
}


def options(words):
    words.add_argument("--orders", type=int, dest="tried", help="how many orders the day has: 20000 if not given")


def new_day(book, orders, folder):
    """Makes a book with a day of orders that have settled."""
    desks.new_book(book, desks.KEYS, 10**9)
    for first in range(0, orders, ROWS):
        path = f"{folder}/orders.csv"
        with open(path, "w", encoding="utf-8") as it:
            rows = [f"B-{number},BETA,1\n" for number in range(first, min(first + ROWS, orders))]
            it.write("".join(["reference,to,amount\n", *rows]))
        desks.desk("import", book, "ALFA", path)


class Asking:
    """A bank that asks for statements on many connections without end, until the end of its `with`."""

    def __init__(self, behind, lines):
        self.behind, self.lines, self.had, self.is_over = behind, lines, collections.Counter(), False
        self.all = [threading.Thread(target=self.ask) for _ in range(ASKING)]

    def ask(self):
        while not self.is_over:
            try:
                status, _, said = self.behind.sent(STATEMENT, desks.KEYS["BETA"])
            except OSError:
                status, said = 0, ""
            is_whole = said.count("\nreceived ") >= self.lines
            self.had["whole" if status == 200 and is_whole else status] += 1
            if status != 200:
                # (the bank's clients have no more than their part of this machine)
                time.sleep(PAUSE)

    def __enter__(self):
        for it in self.all:
            it.start()
        return self

    def __exit__(self, *_):
        self.is_over = True
        for it in self.all:
            it.join()


class Timed(proxy.Behind):
    """A desk with such a day behind a proxy."""

    def __init__(self, kind, folder, report, edits, book):
        self.folder, self.report, self.book, self.number = folder, report, book, 0
        self.server = desks.Server(book, MANY)
        self.proxy = kind(folder, self.server.port, edits=edits)

    def orders(self, prefix):
        """Returns how many seconds each of some orders took. Each must be answered."""
        took = []
        for number in range(SENT):
            begun = time.monotonic()
            body = f'{{"amount":1,"reference":"{prefix}-{number}","to":"GAMA"}}'
            status = self.sent("/orders", desks.KEYS["ALFA"], body)[0]
            took.append(time.monotonic() - begun)
            self.sees("an order meanwhile", status, 200)
        return took


def busy(kind, book, orders, prefix, report, edits=None):
    """Returns how many seconds orders took with nothing beside them, and while another bank asked for statements, and
    what that bank was answered."""
    with desks.room() as folder, Timed(kind, folder, report, edits, book) as it:
        alone = it.orders(f"{prefix}A")
        with Asking(it, orders) as asking:
            time.sleep(1)
            took = it.orders(prefix)
            time.sleep(1)
    return alone, took, asking.had


def compared(kind, book, orders, report):
    """Orders take a short time with the limits, and longer without them."""
    alone, took, had = busy(kind, book, orders, f"{kind.NAME.upper()}-L", report)
    told = ", ".join(f"{count} {what}" for what, count in sorted(had.items(), key=str))
    report.finds(f"{kind.NAME}: an order takes {statistics.median(took):.3f} s, at most {max(took):.3f}, and "
                 f"{statistics.median(alone):.3f} with nothing beside it; of statements meanwhile: {told}")
    report.sees(f"{kind.NAME}: an order takes at most {LONGEST} s", max(took) < LONGEST, True)
    report.sees(f"{kind.NAME}: statements are answered whole", had["whole"] > 0, True)
    _, free, _ = busy(kind, book, orders, f"{kind.NAME.upper()}-F", report, UNLIMITED[kind.NAME])
    report.finds(f"{kind.NAME}, without its limits: an order takes {statistics.median(free):.3f} s, at most "
                 f"{max(free):.3f}")
    report.sees(f"{kind.NAME}: the limits make it shorter", statistics.median(free) > statistics.median(took), True)


def at_once(behind, path, bodies):
    """Returns how often each status came of requests that one bank sends at once."""
    found, begins = collections.Counter(), threading.Barrier(len(bodies))

    def sends(body):
        begins.wait()
        found[behind.sent(path, desks.KEYS["ALFA"], body)[0]] += 1

    all_of_them = [threading.Thread(target=sends, args=(it,)) for it in bodies]
    for it in all_of_them:
        it.start()
    for it in all_of_them:
        it.join()
    return found


def lines(book, report):
    """What nginx answers to more requests of one bank than it may have in progress: 429, to orders less than to
    statements."""
    with desks.room() as folder, Timed(proxies.Nginx, folder, report, None, book) as it:
        bodies = [f'{{"amount":1,"reference":"ONCE-{number}","to":"GAMA"}}' for number in range(AT_ONCE)]
        orders, statements = at_once(it, "/orders", bodies), at_once(it, STATEMENT, [None] * AT_ONCE)
        limited = it.sent(STATEMENT, desks.KEYS["GAMA"])[0]
    report.finds(f"nginx: {AT_ONCE} orders at once: {dict(orders)}; {AT_ONCE} statements: {dict(statements)}")
    report.sees("statuses of orders and statements", set(orders) | set(statements), {200, 429})
    report.sees("orders are limited less", orders[429] < statements[429], True)
    report.sees("orders that are answered", orders[200] > AT_ONCE // 2, True)
    report.sees("another bank meanwhile", limited, 200)


def run(given, report):
    orders = given.tried or 20000
    with desks.room() as folder:
        book = f"{folder}/bank.desk"
        new_day(book, orders, folder)
        for kind in proxies.ALL:
            report.finds(kind.version())
            compared(kind, book, orders, report)
        lines(book, report)
    report.sums(f"a day of {orders} orders: {report.right} things as they must be, {report.wrong} not")
