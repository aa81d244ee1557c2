"""Kills the server under load, and looks whether the book has what was answered.

Each round starts the server over a book, on an automatic day, and has four clients send orders at once, each of them
one after another: an order of a bank without money, which waits; then one that pays this bank, settles, and frees it.
The server is killed by SIGKILL at a random moment of three seconds. The book that the next opening finds must have
every order of each client whose whole reply came, and at most one more, with what followed it: an opening refuses a
book in which something waits that could settle. Every tenth round begins with a new book. The check ends at the first
round where that is not so. An order is in flight if it was sent whole, and no whole reply came. The server takes one
connection after another, so one of those in flight is at work, and the others wait.

Shows: that what was answered had been written to the files before, at any moment of a load of four clients.
Cannot show: what a disk keeps through a power cut: what a killed process has written stays in the memory of the system.
"""
import json
import random
import socket
import time
from concurrent.futures import ThreadPoolExecutor

from lib import desks

CLIENTS = 4
# the longest time in seconds that a round sends orders
MOST = 3
ROUNDS_OF_A_BOOK = 10
MONEY = 10**9
CONNECTIONS = 10**6
GOOD = b"HTTP/1.1 200 OK\r\n"


def options(words):
    words.add_argument("--rounds", type=int, default=400, help="how many kills: 400 if not given")


class Client:
    """One that sends orders of two banks in turn, from a number on. The second bank has no money but what the first
    pays it, and pays it on to a third."""

    def __init__(self, at):
        self.payer, self.waiting, self.third = (f"{it}{at:03}" for it in ("ALFA", "BETA", "GAMA"))
        self.keys = {code: f"{CLIENTS * place + at + 1:032x}" for place, code in enumerate(self.codes())}
        self.begins(0)

    def codes(self):
        return self.payer, self.waiting, self.third

    def begins(self, number):
        """Begins a round, in which the first order has this number."""
        self.first = self.next = number
        self.is_in_flight = False

    def order(self):
        """Returns the next order, and what its reply must say."""
        orders = (self.waiting, self.third, "queued"), (self.payer, self.waiting, "settled")
        sender, to, answer = orders[self.next % 2]
        return desks.order(self.keys[sender], to, self.next // 2 + 1), answer

    def sends(self, port):
        """Sends orders until the server is gone."""
        reply = self.reply(port)
        while reply:
            self.next += 1
            reply = self.reply(port)

    def reply(self, port):
        """Returns the whole reply to the next order, or nothing where there is none. It must be the right one."""
        sent, answer = self.order()
        reply = b""
        self.is_in_flight = False
        try:
            with socket.create_connection(("127.0.0.1", port), timeout=desks.SECONDS) as link:
                link.sendall(sent)
                self.is_in_flight = True
                reply = b"".join(iter(lambda: link.recv(65536), b""))
        except ConnectionError:
            return None
        if not is_whole(reply):
            return None
        self.is_in_flight = False
        if not reply.startswith(GOOD) or f'"answer":"{answer}"'.encode() not in reply:
            raise desks.Broken(f"a server replied {reply!r} to {sent!r}")
        return reply

    def in_the_book(self, server):
        """Returns how many orders of the client the book of a server has: two for each that is freed, and the one that
        waits."""
        waiting, third = (account(server, self.keys[it]) for it in (self.waiting, self.third))
        return 2 * third["balance"] + waiting["queued"]


def account(server, key):
    """Returns what a server shows of the account of the bank with this key."""
    return json.loads(server.asked(desks.request("GET", "/account", key)).partition(b"\r\n\r\n")[2])


def is_whole(reply):
    """Returns whether the bytes are a whole reply."""
    head, end, body = reply.partition(b"\r\n\r\n")
    length = [it.partition(b": ")[2] for it in head.split(b"\r\n") if it.startswith(b"Content-Length: ")]
    return bool(end) and len(length) == 1 and int(length[0]) == len(body)


class Counts:
    """How many orders were answered in all rounds, how many were in flight at their ends, and how many of those are in
    the book."""

    def __init__(self):
        self.rounds = self.answered = self.in_flight = self.more = 0

    def adds(self, clients, found):
        """Adds the counts of a round, and returns how it is not as it must be, or nothing."""
        self.rounds += 1
        for client, in_the_book in zip(clients, found):
            self.answered += client.next - client.first
            self.in_flight += client.is_in_flight
            self.more += in_the_book > client.next
            if not client.next <= in_the_book <= client.next + client.is_in_flight:
                return f"orders of {client.payer}: {client.next} were answered, and {in_the_book} are in the book"
        return ""

    def told(self, what):
        """Returns in words what was counted, where it was done so."""
        return (f"{self.rounds} {what}: {self.answered} orders were answered, {self.answered / self.rounds:.0f} before "
                f"each, and all are in the book with what followed them; {self.in_flight / self.rounds:.1f} were in "
                f"flight at each, and {self.more} of {self.in_flight} are in the book")


def new_book(book, clients):
    """Makes a book of the clients' banks, in which the first bank of each has money, and opens an automatic day."""
    keys = {code: key for it in clients for code, key in it.keys.items()}
    desks.remove(book)
    desks.new_book(book, keys, MONEY, "A Bank", "--automatic")
    for number, client in enumerate(clients[1:], 2):
        desks.desk("post", book, client.payer, f"P-{number}", str(MONEY))
    for client in clients:
        client.begins(0)


def found_in(book, clients):
    """Opens a book, and returns how many orders of each client it has."""
    with desks.Server(book, 2 * len(clients)) as server:
        return [it.in_the_book(server) for it in clients]


def send_until_killed(book, clients, before_a_kill):
    """Has the clients send orders to a server of the book until it is killed, after this was done with it."""
    with ThreadPoolExecutor(len(clients)) as lanes:
        server = desks.Server(book, CONNECTIONS)
        try:
            sending = [lanes.submit(it.sends, server.port) for it in clients]
            time.sleep(random.uniform(0, MOST))
            before_a_kill(server.process, book)
        finally:
            server.kill()
        for it in sending:
            it.result()


def kill_again_and_again(rounds, report, before_a_kill, end):
    """Kills the server in each of these rounds, after this was done with it and its book. Looks at the file of the book
    whose name has this end. Returns what was counted."""
    clients, counts = [Client(it) for it in range(CLIENTS)], Counts()
    with desks.room() as folder:
        book = f"{folder}/killed.desk"
        for at in range(rounds):
            if at % ROUNDS_OF_A_BOOK == 0:
                new_book(book, clients)
            send_until_killed(book, clients, before_a_kill)
            found = found_in(book + end, clients)
            wrong = counts.adds(clients, found)
            report.counts(not wrong)
            if wrong:
                report.finds(f"round {at + 1}: {wrong}")
                break
            for client, number in zip(clients, found_in(book, clients) if end else found):
                client.begins(number)
    if not report.wrong:
        is_load = counts.answered > 0 and counts.in_flight > 0
        report.sees("orders that were answered, and orders in flight", is_load, True)
    return counts


def sums(what, counts, report):
    """Sums up what was counted, where it was done so and all was as it must be."""
    report.sums(f"{report.wrong} things were not as they must be" if report.wrong else counts.told(what))


def run(given, report):
    counts = kill_again_and_again(given.rounds, report, lambda server, book: None, "")
    sums("kills", counts, report)
