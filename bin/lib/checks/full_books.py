"""Asks for all that a book as large as a book may be has, over both doors.

A hundred banks have 500 orders each that wait. In a ring all 50,000 settle by one resolution; held orders come in and
settle as an automatic day is opened; orders for which money is lacking are rejected as the day is closed. Another book
has 200,000 settled orders with due dates, under as many marks, and as many postings. Each book is made row by row, in
two copies. Of one a run asks each question, and of the other a request; both must answer as the rows say, and both
copies must end with the same rows. Needs the stock `sqlite3`.

Shows: that no number of banks, of orders that wait, of rows and of orders that settle together is too large for a book.
Cannot show: how long it takes: `bin/costs` does.
"""
import json
import shutil
import typing

from lib import desks, full, runs
from lib.full import CODES, FIRST, SECOND
from lib.random_commands import key_of

NEEDS = ("sqlite3",)
# all orders that may wait, and a number of rows that no table of most books has
ALL, ROWS = full.BANKS * full.WAITING, 200_000
ONE, LAST = CODES[0], CODES[-1]
MANY = 1000
# the longest time of a run or a reply: each order of the history has a due date, so that a statement takes long
SECONDS = 600
JSON = "\n"
# what the text of the queues may have, in bytes
LONGEST = 650_000


class Question(typing.NamedTuple):
    """What is asked: the words of a run, with the book's file left out, and what it prints; a request, and the body of
    its reply."""

    words: tuple
    printed: str
    request: bytes
    body: str


def bank(method, path, code, body=None):
    return desks.request(method, path, key_of(code), body)


def operator(method, path, body=None):
    return desks.request(method, path, desks.OPERATOR, body)


def reading(words, request, said):
    """Returns a question to which the reply is what a run prints: JSON without the end of its line."""
    return Question(words, said, request, said.removesuffix("\n") if said.startswith("{") else said)


def of_queue(book, code):
    return reading(("queue", code), bank("GET", "/queue", code), full.queue(book, code) + JSON)


def of_order(order):
    words = ("order", order.sender, order.reference)
    return reading(words, bank("GET", f"/orders/{order.reference}", order.sender), full.reading(order) + JSON)


def of_statement(book, code, date):
    words = ("statement", code, date)
    return reading(words, bank("GET", f"/statements/{date}", code), full.statement(book, code, date))


def of_report(book, date, marks=None):
    return reading(("report", date), operator("GET", f"/desk/report/{date}"), full.report(book, date, marks))


def of_status(book):
    return reading(("status",), operator("GET", "/desk/status"), full.status(book) + JSON)


def of_queues(book):
    return reading(("queues",), operator("GET", "/desk/queues"), full.queues(book) + JSON)


def of_waits(book, code):
    """Returns what is asked of what waits of a bank, and the operator's questions of the same."""
    yield reading(("held", code), bank("GET", "/held", code), full.held(book, code) + JSON)
    yield reading(("held", code), operator("GET", f"/desk/held/{code}"), full.held(book, code) + JSON)
    yield reading(("waiting", code), bank("GET", "/waiting", code), full.waiting(book, code) + JSON)
    yield reading(("queue", code), operator("GET", f"/desk/queue/{code}"), full.queue(book, code) + JSON)


def of_date(book, date, together=False):
    """Returns what is asked of the records of a date."""
    yield reading(("orders", date), operator("GET", f"/desk/orders/{date}"), full.orders_of(book, date))
    marks = full.marks_of(book, date, together)
    yield reading(("marks", date), operator("GET", f"/desk/marks/{date}"), marks)


def command(words, path, fields, printed, **body):
    """Returns a command of the operator, with the fields of its request and those of its reply."""
    return Question(words, printed + "\n", operator("POST", path, json.dumps(fields)), full.compact(body))


def resolved(marks, count):
    """Returns a resolution that settles this many orders of one cent, and then one that settles nothing."""
    said = f"resolved mark {marks} count {count} value {count}"
    yield command(("resolve",), "/desk/resolve", {}, said, answer="resolved", count=count, mark=marks, value=count)
    yield command(("resolve",), "/desk/resolve", {}, "nothing", answer="nothing")


def batch(folder, rows, results):
    """Returns the batch of the first bank of these rows, each with its result. Its file has the name of the results."""
    text, path = "".join(["reference,to,amount\n", *(f"{it}\n" for it in rows)]), f"{folder}/{'-'.join(results)}"
    with open(path, "w", encoding="utf-8") as it:
        it.write(text)
    said = "".join(["reference,result,number,detail\n", *(f"{it}\n" for it in results)])
    return Question(("import", ONE, path), said, bank("POST", "/batches", ONE, text), said)


# The books, each with what is asked of it


def settled_under(book, mark, date):
    """Returns a book in which one resolution settled all orders under this mark, on this date."""
    orders = [it._replace(state=full.SETTLED, mark=mark, date=date) for it in book.orders]
    return book._replace(orders=orders, date=date, phase=full.OPEN)


def gridlock(folder):
    """All wait for each other."""
    book = full.Book(FIRST, full.OPEN, full.ring(ALL, full.QUEUED, date=FIRST), [])
    after = settled_under(book, 1, FIRST)
    full_queue = batch(folder, [f"Q-1,{CODES[1]},1"], ["Q-1,refused,,7"])
    again = batch(folder, [f"A-1,{CODES[1]},1", f"Q-2,{CODES[1]},1"],
                  ["A-1,repeated,1,settled", f"Q-2,queued,{ALL + 1},1"])
    yield book
    yield [of_queue(book, ONE), of_queue(book, LAST), of_status(book), of_queues(book), *of_waits(book, ONE),
           full_queue, *resolved(1, ALL), of_order(after.orders[-1]), of_statement(after, LAST, FIRST),
           of_report(after, FIRST, 1), of_queues(after), *of_date(after, FIRST, together=True), again]


def crossed(_folder):
    """Each waits for all others: the longest text of the queues."""
    book = full.Book(FIRST, full.OPEN, full.crossed(ALL, date=FIRST), [])
    queues = of_queues(book)
    # (one for each receiver of a bank, and one for its first order)
    receivers = full.BANKS * (1 + min(ALL // full.BANKS, full.BANKS - 1))
    if (queues.body.count('"to":'), len(queues.body) < LONGEST) != (receivers, True):
        raise desks.Broken(f"the text of the queues has {len(queues.body)} bytes")
    yield book
    yield [queues, of_status(book), of_queue(book, ONE), *of_waits(book, LAST)]


def let_in(_folder):
    """All are held, and come in as the day is opened."""
    book = full.Book(FIRST, full.CLOSED, full.ring(ALL, full.HELD, date=SECOND, due=SECOND), [])
    after = settled_under(book, 1, SECOND)
    auto = {"count": ALL, "mark": 1, "value": ALL}
    opened = command(("open", SECOND, "--automatic"), "/desk/open", {"automatic": True, "date": SECOND},
                     f"opened\nauto mark 1 count {ALL} value {ALL}", answer="opened", auto=auto)
    yield book
    yield [of_status(book), *of_waits(book, LAST), of_order(book.orders[0]), of_statement(book, ONE, SECOND), opened,
           of_order(after.orders[0]), of_queue(after, ONE), of_statement(after, ONE, SECOND),
           of_report(after, SECOND, 1), *of_date(after, SECOND, together=True)]


def rejected(_folder):
    """One bank's orders are larger than all that it may get, so that no other one gets anything. Half of all had a due
    date."""
    orders = full.ring(ALL, full.QUEUED, lambda bank: 1 if bank else ALL, date=FIRST)
    orders = [it._replace(due=FIRST) if it.number % 2 else it for it in orders]
    book = full.Book(FIRST, full.OPEN, orders, [])
    after = book._replace(orders=[it._replace(state=full.REJECTED) for it in orders])
    date, said = {"date": FIRST}, f"closed rejected {ALL}"
    ends = [command(("cutoff", FIRST), "/desk/cutoff", date, "cut off", answer="cut off"),
            command(("close", FIRST), "/desk/close", date, said, answer="closed", rejected=ALL)]
    yield book
    yield [of_statement(book, ONE, FIRST), *ends, of_order(after.orders[0]), of_order(after.orders[1]),
           of_queue(after, LAST), of_statement(after, ONE, FIRST), of_report(after, FIRST), *of_date(after, FIRST)]


def history(folder):
    """Each table has many rows, of two dates."""
    dates = [FIRST if at * 2 < ROWS else SECOND for at in range(ROWS)]
    orders = [it._replace(mark=it.number, date=date, due=date)
              for it, date in zip(full.ring(ROWS, full.SETTLED, date=FIRST), dates)]
    postings = [full.Posting(at + 1, full.code_of(at), f"P-{at + 1}", 1, date) for at, date in enumerate(dates)]
    book = full.Book(SECOND, full.OPEN, orders, postings)
    new = batch(folder, [f"A-{ROWS + 1},{CODES[1]},1", f"A-1,{CODES[1]},2"],
                [f"A-{ROWS + 1},settled,{ROWS + 1},{ROWS + 1}", "A-1,refused,,4"])
    posted = command(("post", LAST, "P-0", "5"), "/desk/post", {"code": LAST, "reference": "P-0", "cents": 5},
                     f"posted {ROWS + 1}", answer="posted", number=ROWS + 1)
    fields = {"code": LAST, "reference": f"P-{ROWS}", "cents": 1}
    repeated = command(("post", LAST, f"P-{ROWS}", "1"), "/desk/post", fields, "repeated", answer="repeated",
                       number=ROWS)
    yield book
    yield [of_order(orders[0]), of_order(orders[-1]), of_statement(book, ONE, FIRST), of_statement(book, LAST, SECOND),
           of_report(book, FIRST), of_report(book, SECOND), *of_date(book, FIRST), *of_date(book, SECOND), new, posted,
           repeated]


BOOKS = (gridlock, crossed, let_in, rejected, history)


def shown(text):
    """Returns a text, or its length and its ends where it is long."""
    return text if len(text) < 300 else f"{len(text)} bytes: {text[:100]!r} .. {text[-100:]!r}"


def compare(what, found, wanted, report):
    """Counts a text that was looked at, and finds it where it is not as it must be."""
    report.counts(found == wanted)
    if found != wanted:
        report.finds(f"{what}\n  must be: {shown(wanted)}\n  is:      {shown(found)}")


def by_runs(path, questions, report):
    """Asks each question by a run."""
    for it in questions:
        ran = runs.run(it.words[0], path, *it.words[1:], timeout=SECONDS)
        compare(f"desk {' '.join(it.words)}", ran.out + ran.err, it.printed, report)


def by_requests(path, questions, report):
    """Asks each question by a request to one server."""
    with desks.Server(path, MANY) as server:
        for it in questions:
            link = desks.send(server.port, it.request)
            link.settimeout(SECONDS)
            reply = desks.reply_on(link).partition(b"\r\n\r\n")[2].decode()
            compare(it.request.splitlines()[0].decode(), reply, it.body, report)
        accounts = json.loads(server.asked(operator("GET", "/desk/accounts")).partition(b"\r\n\r\n")[2])["accounts"]
        server.kill()
    return accounts


def asked(make, folder, report):
    """Makes a book twice, asks each question of both, and compares what is left. Returns how many were asked."""
    book, questions = make(folder)
    path, other = f"{folder}/{make.__name__}", f"{folder}/{make.__name__}-served"
    full.write(book, path)
    shutil.copy(path, other)
    by_runs(path, questions, report)
    accounts = by_requests(other, questions, report)
    report.sees("banks", len(accounts), full.BANKS)
    report.sees("accounts of both", json.loads(desks.desk("accounts", path))["accounts"], accounts)
    report.sees("one bank more", runs.run("add", path, "MORE", "A Bank", "9" * 32), runs.refused(12))
    compare("the rows of both", desks.stock(other, ".dump"), desks.stock(path, ".dump"), report)
    return len(questions)


def run(_given, report):
    questions = 0
    for make in BOOKS:
        with desks.room() as folder:
            questions += asked(make, folder, report)
        report.finds(f"{make.__name__.replace('_', ' ')}: {make.__doc__.splitlines()[0]}")
    report.sums(f"{len(BOOKS)} books, {questions} questions over both doors: {report.right} things as they must be, "
                f"{report.wrong} not")
