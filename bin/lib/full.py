"""Books with as many banks as a book may have, made row by row, and the texts that a desk must make of them."""
import contextlib
import hashlib
import json
import sqlite3
import typing

from lib import desks, readings
from lib.random_commands import key_of

# the most participants, the most orders of each that wait, and the greatest amount of an order
BANKS, WAITING, LARGEST = 100, 500, 10 ** 12
CLOSED, OPEN = 0, 1
PHASES = ("CLOSED", "OPEN", "CUTOFF")
QUEUED, SETTLED, WITHDRAWN, REJECTED, HELD = range(5)
STATES = ("queued", "settled", "withdrawn", "rejected", "held")
# the order of the lines of a day report
REPORTED = (SETTLED, QUEUED, HELD, WITHDRAWN, REJECTED)
FIRST, SECOND = desks.DATE, desks.weekday(1)
# the sums of a bank's day
POSTED, SENT, RECEIVED = range(3)


class Order(typing.NamedTuple):
    """An order, as the table `payment` has it, and its due date."""

    number: int
    sender: str
    reference: str
    receiver: str
    amount: int
    date: str
    state: int
    mark: typing.Optional[int] = None
    due: typing.Optional[str] = None


class Posting(typing.NamedTuple):
    """A posting, as the table has it."""

    number: int
    code: str
    reference: str
    cents: int
    date: str


class Book(typing.NamedTuple):
    """A book: its business date, its phase, its orders, each settled one under a mark of its own, and its postings."""

    date: str
    phase: int
    orders: list
    postings: list


def code_of(bank):
    """Returns the code of the bank of this number, which is counted in a ring."""
    return f"BANK{bank % BANKS:02}"


CODES = [code_of(it) for it in range(BANKS)]


def ring(count, state, amount_of=lambda bank: 1, **more):
    """Returns this many orders, of which each bank in turn sends one to the next bank."""
    return [Order(at + 1, code_of(at), f"A-{at + 1}", code_of(at + 1), amount_of(at % BANKS), state=state, **more)
            for at in range(count)]


def crossed(count, **more):
    """Returns this many queued orders of the greatest amount, of which each bank in turn sends one to each other bank
    in turn."""
    return [Order(at + 1, code_of(at), f"A-{at + 1}", code_of(at + 1 + at // BANKS % (BANKS - 1)), LARGEST,
                  state=QUEUED, **more) for at in range(count)]


def balances(book):
    """Returns the balance of each bank in cents: what was posted, and what settled."""
    found = dict.fromkeys(CODES, 0)
    for it in book.postings:
        found[it.code] += it.cents
    for it in book.orders:
        if it.state == SETTLED:
            found[it.sender] -= it.amount
            found[it.receiver] += it.amount
    return found


def write(book, path):
    """Makes the file of a book."""
    desks.desk("init", path)
    banks = [(it, "A Bank", hashlib.sha256(key_of(it).encode()).digest(), 0, cents)
             for it, cents in balances(book).items()]
    marks = [(it.mark, it.date, 1, it.amount) for it in book.orders if it.state == SETTLED]
    with contextlib.closing(sqlite3.connect(path)) as conn, conn:
        conn.executemany("INSERT INTO participant VALUES (?, ?, ?, ?, ?)", banks)
        conn.executemany("INSERT INTO posting VALUES (?, ?, ?, ?, ?)", book.postings)
        conn.executemany("INSERT INTO payment VALUES (?, ?, ?, ?, ?, ?, ?, ?)", [it[:-1] for it in book.orders])
        conn.executemany("INSERT INTO forward VALUES (?, ?)", [(it.number, it.due) for it in book.orders if it.due])
        conn.executemany("INSERT INTO mark VALUES (?, ?, ?, ?)", marks)
        conn.execute("UPDATE desk SET date = ?, phase = ?", (book.date, book.phase))


# What a desk says of a book


def units(cents):
    """Returns an amount as texts have it."""
    return f"{'-' if cents < 0 else ''}{abs(cents) // 100}.{abs(cents) % 100:02}"


def line(kind, row, party, cents):
    """Returns the line of a posting or an order in a statement."""
    mark = getattr(row, "mark", None) or "-"
    return f"{kind:<10} {row.number:09} {row.reference:<16} {party:<8} {units(cents):>20} {mark:>9}\n"


def line_of_order(code, order):
    """Returns the line of an order in the statement of its sender or receiver, or nothing where it has none."""
    if order.sender == code:
        kind = "sent" if order.state == SETTLED else STATES[order.state]
        return line(kind, order, order.receiver, order.amount)
    if order.receiver == code and order.state == SETTLED:
        return line("received", order, order.sender, order.amount)
    return ""


def sums(book, date):
    """Returns of each bank what was posted to it on a date, what it sent, and what it received."""
    found = {it: [0, 0, 0] for it in CODES}
    for it in book.postings:
        if it.date == date:
            found.setdefault(it.code, [0, 0, 0])[POSTED] += it.cents
    for it in book.orders:
        if it.date == date and it.state == SETTLED:
            found.setdefault(it.sender, [0, 0, 0])[SENT] += it.amount
            found.setdefault(it.receiver, [0, 0, 0])[RECEIVED] += it.amount
    return found


def statement(book, code, date):
    """Returns a bank's statement of a date."""
    posted, sent, received = sums(book, date)[code]
    lines = [line("posting", it, "-", it.cents) for it in book.postings if (it.code, it.date) == (code, date)]
    lines += [line_of_order(code, it) for it in book.orders if it.date == date]
    ends = {"sum-posted": posted, "sum-sent": sent, "sum-recv": received, "net": posted - sent + received}
    return "".join([f"statement {code} {date}\n", *lines, *(f"{it:<10} {units(ends[it]):>30}\n" for it in ends)])


def report(book, date, marks=None):
    """Returns the day report of a date. Where one resolution settled all, its marks are given."""
    orders = [it for it in book.orders if it.date == date]
    lines = [f"report {date}\n"]
    for code, sums_of_it in sums(book, date).items():
        lines.append(" ".join([f"{code:<8}", *(f"{units(it):>30}" for it in sums_of_it)]) + "\n")
    for state in REPORTED:
        amounts = [it.amount for it in orders if it.state == state]
        lines.append(f"{STATES[state]:<10} {len(amounts):>9} {units(sum(amounts)):>30}\n")
    many = len({it.mark for it in orders if it.mark}) if marks is None else marks
    return "".join([*lines, f"marks      {many:>9}\n"])


def reading(order):
    """Returns an order's reading."""
    shown = {"amount": order.amount, "date": order.date, "due": order.due, "mark": order.mark, "number": order.number,
             "reference": order.reference, "state": STATES[order.state], "to": order.receiver}
    return compact({key: it for key, it in shown.items() if it is not None})


def queue(book, code):
    """Returns the reading of a bank's queue."""
    waiting = [it for it in book.orders if it.sender == code and it.state == QUEUED]
    return compact({"orders": [{"amount": it.amount, "number": it.number, "place": place, "reference": it.reference,
                                "to": it.receiver} for place, it in enumerate(waiting, 1)]})


def waits(book, state, code=None):
    """Returns the orders in this state, of all banks or of one."""
    return [it for it in book.orders if it.state == state and code in (None, it.sender)]


def value_of(orders):
    return sum(it.amount for it in orders)


def status(book):
    """Returns how the desk stands. Each settled order has a mark of its own."""
    queued, held, marks = waits(book, QUEUED), waits(book, HELD), [it for it in book.orders if it.mark]
    return compact({"automatic": False, "date": book.date, "held": len(held), "held_value": value_of(held),
                    "next_mark": len(marks) + 1, "next_order": len(book.orders) + 1,
                    "next_posting": len(book.postings) + 1, "participants": BANKS, "phase": PHASES[book.phase],
                    "queued": len(queued), "queued_value": value_of(queued), "sum": sum(balances(book).values()),
                    "tables": int(readings.tables_version()), "version": readings.program_version()})


def listed(order):
    """Returns an order as a line of the orders of its date has it."""
    due, mark = order.due or "", str(order.mark or "")
    texts = str(order.number), order.sender, order.reference, order.receiver, str(order.amount), due
    return readings.Listed(*texts, STATES[order.state], mark)


def queues(book):
    """Returns the reading of all queues, where no bank has credit."""
    accounts = {code: {"balance": cents, "credit": 0} for code, cents in balances(book).items()}
    found = readings.queues_of([listed(it) for it in book.orders], accounts)
    return compact({"automatic": False, "date": book.date, "phase": PHASES[book.phase], "queues": found})


def held(book, code):
    """Returns the reading of a bank's held orders."""
    orders = sorted(waits(book, HELD, code), key=lambda it: (it.due, it.number))
    return compact({"orders": [{"amount": it.amount, "due": it.due, "number": it.number, "reference": it.reference,
                                "to": it.receiver} for it in orders]})


def waiting(book, code):
    """Returns the reading of why a bank waits that has no credit."""
    queued, kept, room = waits(book, QUEUED, code), waits(book, HELD, code), balances(book)[code]
    firsts = [{"amount": it.amount, "number": it.number, "reference": it.reference, "to": it.receiver} for it in queued]
    short = max(queued[0].amount - room, 0) if queued else 0
    return compact({**({"first": firsts[0]} if firsts else {}), "headroom": room, "held": len(kept),
                    "held_value": value_of(kept), "queued": len(queued), "queued_value": value_of(queued),
                    "short": short})


def orders_of(book, date):
    """Returns the orders of a date, as they are listed."""
    lines = [",".join(listed(it)) + "\n" for it in book.orders if it.date == date]
    return "".join([readings.ORDERS, *lines])


def marks_of(book, date, together=False):
    """Returns the marks of a date. Where one resolution settled all, there is one."""
    orders = [it for it in book.orders if it.date == date and it.mark]
    marks = [(1, len(orders), value_of(orders))] if together else [(it.mark, 1, it.amount) for it in orders]
    return "".join([readings.MARKS, *(f"{number},{count},{value}\n" for number, count, value in marks)])


def compact(value):
    """Returns a JSON value as a desk writes it."""
    return json.dumps(value, separators=(",", ":"))
