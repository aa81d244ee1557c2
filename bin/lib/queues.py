"""Books in which orders wait, by the shape of their queues: all banks wait for one, a chain, and a ring of rings."""
import contextlib
import hashlib
import json
import random
import sqlite3
import typing

from lib import desks
from lib.random_commands import key_of

# the bank that has money, and the number of those with queues: in rings, a number of rings of a number of banks
PAYER = "PAYER"
BANKS, RINGS, OF_A_RING = 99, 11, 9
MONEY = 10**12
# the amounts in cents of the orders that wait: equal ones, or such as are drawn between two bounds. The orders of one
# bank of a ring are larger by this part of the greatest one, so that the ring does not settle
EQUAL, DRAWN = (100000, 100000), (50000, 150000)
LARGER = 0.7
OPEN, QUEUED = 1, 0
AUTOMATIC = "UPDATE resolution SET automatic = 1"


def code_of(bank):
    return f"BANK{bank:02}"


class Order(typing.NamedTuple):
    """An order: the number of its sender, its receiver's code, and its amount."""

    sender: int
    receiver: str
    amount: int


# the shapes: each says to which bank an order of this place in a bank's queue goes, and by how much it is larger


def star(_bank, _place):
    """All wait for the bank that has money, and no queue."""
    return BANKS, 0


def chain(bank, _place):
    """Each waits for the next, and the last one for the bank that has money."""
    return bank + 1, 0


def rings(bank, place):
    """Eleven rings of nine banks. Each bank sends to the next of its ring and, by every second order, to the bank of
    the same place in the next ring, so that these are rings too. One bank of each ring sends more than it gets."""
    ring, at = divmod(bank, OF_A_RING)
    if place % 2:
        return (ring + 1) % RINGS * OF_A_RING + at, LARGER if ring == 0 else 0
    return ring * OF_A_RING + (at + 1) % OF_A_RING, LARGER if at == 0 else 0


SHAPES = {"star": star, "chain": chain, "rings": rings}


def orders(shape, count, amounts):
    """Yields this many orders of the shape with such amounts, by the place in the queue, and in each place one of each
    bank."""
    chance = random.Random(f"{shape} {count}")
    for at in range(count):
        place, bank = divmod(at, BANKS)
        receiver, larger = SHAPES[shape](bank, place)
        yield Order(bank, receiver_of(receiver), chance.randint(*amounts) + int(larger * amounts[1]))


def receiver_of(bank):
    return code_of(bank) if bank < BANKS else PAYER


def write_book(path, money, payments=()):
    """Makes a book of a plain day of banks that have this money, with these rows of payments."""
    desks.desk("init", path)
    banks = [(it, "A Bank", hashlib.sha256(key_of(it).encode()).digest(), 0, cents) for it, cents in money.items()]
    postings = [(at, it, f"P-{at}", cents, None) for at, (it, cents) in enumerate(money.items(), 1) if cents]
    with contextlib.closing(sqlite3.connect(path)) as conn, conn:
        conn.executemany("INSERT INTO participant VALUES (?, ?, ?, ?, ?)", banks)
        conn.executemany("INSERT INTO posting VALUES (?, ?, ?, ?, ?)", postings)
        conn.executemany("INSERT INTO payment VALUES (?, ?, ?, ?, ?, ?, ?, ?)", payments)
        conn.execute("UPDATE desk SET date = ?, phase = ?", (desks.DATE, OPEN))


def make_book(path, shape, count, amounts):
    """Makes a book of a plain day in which this many orders wait, less those that could settle. Returns how many."""
    money = {PAYER: MONEY, **dict.fromkeys(map(code_of, range(BANKS)), 0)}
    payments = [(at, code_of(it.sender), f"A-{at}", it.receiver, it.amount, desks.DATE, QUEUED, None)
                for at, it in enumerate(orders(shape, count, amounts), 1)]
    write_book(path, money, payments)
    desks.desk("resolve", path)
    return sum(it["queued"] for it in json.loads(desks.desk("accounts", path))["accounts"])


def waiting_in(server):
    """Returns how many orders wait in the book of a server."""
    reply = server.asked(desks.request("GET", "/desk/accounts", desks.OPERATOR))
    return sum(it["queued"] for it in json.loads(reply.partition(b"\r\n\r\n")[2])["accounts"])


def queues_in(server):
    """Returns the references of the orders that each bank has queued."""
    found = {}
    for code in map(code_of, range(BANKS)):
        reply = server.asked(desks.request("GET", "/queue", key_of(code)))
        found[code] = [it["reference"] for it in json.loads(reply.partition(b"\r\n\r\n")[2])["orders"]]
    return found
