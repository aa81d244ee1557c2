"""Has the program serve one order twice over loopback, and peers that are refused or slow, byte by byte.

`desk serve --count 2` must listen, settle the order, answer it as a repeat when it comes again, and end with `served 2`
and the status 0. The money must have moved once. A peer that is refused, and then sends 100 KB more, must be able to
send them and get its whole reply, and the next one its own within two seconds, while the first stays. A long reply to a
peer that reads slowly must be what the program prints. A server of a million connections must serve the first ones.
Each must listen at the very port that it is given, below 1024 too, or be refused. The resolver must be asked once for a
command that resolves, for a close that is refused and for one that is not, on an automatic day once for what a command
frees and once for new limits, and not for others. The tests of the gate serve over a real port from a child of the
test; this is the program itself. Without a C compiler, `cc`, the resolutions are not counted.

Shows: that the program takes connections, acts once on what is sent twice, replies to the byte, and ends as it says;
and that no resolution is done twice.
Cannot show: many connections and other requests: `openapi` sends the others. Without the right to open a port below
1024, that one is only seen to be refused.
"""
import contextlib
import json
import socket
import sqlite3
import time

from lib import desks, full, resolutions, runs
from lib.random_commands import key_of

RESOLUTIONS = "how often the resolver is asked"
PARTS = {RESOLUTIONS: "cc"}
CENTS = 150
REPLY = "HTTP/1.1 {} {}\r\nContent-Type: {}\r\nContent-Length: {}\r\nConnection: close\r\n\r\n{}"
ANSWERS = ('{"answer":"settled","mark":1,"number":1}', '{"answer":"repeated","mark":1,"number":1,"state":"settled"}')
REFUSAL = '{"code":67,"name":"NoSuchRoute"}'
# how many bytes a peer sends once it is refused, in how many pieces, a moment after one another: that the
# connection was closed is reported at the piece after the first. How long the next peer may wait, in seconds
UNSENT, PIECES, MOMENT, SOON = 100_000, 10, 0.005, 2
# how many postings make a long reply, and how slowly that is read: the bytes of a piece, and the seconds before each of
# the first pieces
POSTINGS, PIECE, PAUSE, PAUSES = 20_000, 65536, 0.02, 20
# the most connections, and how many of them are made
MOST, MADE = 1_000_000, 3
LOWEST, HIGHEST = range(700, 1024), range(65535, 65000, -1)


def reply_of(body, status="200 OK", kind="application/json"):
    """Returns the whole reply that has this body."""
    return REPLY.format(*status.split(" ", 1), kind, len(body), body)


def said_to(port, sent):
    """Returns the whole reply to what is sent, or how the connection broke off."""
    try:
        return desks.reply_on(desks.send(port, sent)).decode()
    except OSError as why:
        return str(why)


def order_sent_twice(book, report):
    """One order sent twice, and the end of the server."""
    sent = desks.order(desks.KEYS["ALFA"], "BETA", 1, CENTS)
    with desks.Server(book, len(ANSWERS)) as server:
        for answer in ANSWERS:
            report.sees("a reply", said_to(server.port, sent), reply_of(answer))
        report.sees("the end of the server", server.ended(), (0, f"served {len(ANSWERS)}\n", ""))
    balances = [json.loads(desks.desk("account", book, it))["balance"] for it in ("ALFA", "BETA")]
    report.sees("the balances", balances, [0, CENTS])


def refused_peers(book, report):
    """A peer that is refused before it has sent all, and the next one, while the first stays."""
    reading = desks.request("GET", "/account", desks.KEYS["ALFA"])
    account = reply_of(desks.desk("account", book, "ALFA").strip())
    with desks.Server(book, 3) as server:
        with socket.create_connection(("127.0.0.1", server.port), timeout=desks.SECONDS) as peer:
            report.sees("the reply to a refused peer", refused_early(peer), reply_of(REFUSAL, "404 Not Found"))
            start = time.monotonic()
            report.sees("the reply after a refused peer", said_to(server.port, reading), account)
            report.sees("a reply that is there soon after a refused peer", time.monotonic() - start < SOON, True)
        report.sees("the last reply", said_to(server.port, reading), account)
        report.sees("the end after a refused peer", server.ended(), (0, "served 3\n", ""))


def read_after(peer, sent, pauses=0):
    """Returns what is read on a connection after this was sent, slowly at first, or how the connection broke off."""
    reply = bytearray()
    try:
        peer.sendall(sent)
        while part := peer.recv(PIECE):
            reply += part
            time.sleep(PAUSE if pauses > 0 else 0)
            pauses -= 1
    except OSError as why:
        return str(why)
    return reply.decode()


def refused_early(peer):
    """Returns what a peer reads that sends most of its request once it is refused, or how the connection broke."""
    request, rest = desks.request("POST", "/none", desks.KEYS["ALFA"], "x" * UNSENT), UNSENT // PIECES
    try:
        peer.sendall(request[:-UNSENT])
        peer.recv(1, socket.MSG_PEEK)
        for _ in range(PIECES - 1):
            peer.sendall(request[-rest:])
            time.sleep(MOMENT)
    except OSError as why:
        return str(why)
    return read_after(peer, request[-rest:])


def slow_reader(book, report):
    """A long reply to a peer that reads it slowly."""
    with contextlib.closing(sqlite3.connect(book)) as rows, rows:
        posted = [(it + 2, f"Q-{it}", 1 - it % 2 * 2, desks.DATE) for it in range(POSTINGS)]
        rows.executemany("INSERT INTO posting VALUES (?, 'ALFA', ?, ?, ?)", posted)
    statement = desks.desk("statement", book, "ALFA", desks.DATE)
    with desks.Server(book, 1) as server, socket.socket() as peer:
        peer.setsockopt(socket.SOL_SOCKET, socket.SO_RCVBUF, PIECE)
        peer.settimeout(desks.SECONDS)
        peer.connect(("127.0.0.1", server.port))
        asked = desks.request("GET", f"/statements/{desks.DATE}", desks.KEYS["ALFA"])
        is_same = read_after(peer, asked, PAUSES) == reply_of(statement, kind="text/plain")
        report.sees("a long reply, read slowly, is the statement", is_same, True)
        report.sees("lines of the long reply", statement.count("\nposting "), POSTINGS)


def most_connections(book, report):
    """The first connections of a server that takes the most that there may be."""
    reading = desks.request("GET", "/account", desks.KEYS["BETA"])
    account = reply_of(desks.desk("account", book, "BETA").strip())
    with desks.Server(book, MOST) as server:
        for number in range(1, MADE + 1):
            report.sees(f"reply {number} of {MOST}", said_to(server.port, reading), account)
        server.kill()


def operator(path, **body):
    return desks.request("POST", f"/desk/{path}", desks.OPERATOR, json.dumps(body))


def pays(sender, receiver, cents, number=1):
    return desks.order(key_of(full.CODES[sender]), full.CODES[receiver], number, cents)


# What a book of a hundred banks is given, of which the first has money: what it answers, and how often the resolver is
# asked for it. Two orders wait for each other as the day is to be closed. On the automatic day after it the resolver is
# asked once more behind what it settled, for the limits at which it has to be asked again.
GIVEN = (("an order that waits", pays(1, 0, 20), "queued", 0),
         ("an order that waits for it", pays(0, 1, CENTS + 10), "queued", 0),
         ("a cut-off", operator("cutoff", date=desks.DATE), "cut off", 0),
         ("a close that is refused", operator("close", date=desks.DATE), "Resolvable", 1),
         ("a resolution", operator("resolve"), "resolved", 1),
         ("a resolution of nothing", operator("resolve"), "nothing", 1),
         ("a close", operator("close", date=desks.DATE), "closed", 1),
         ("a close that comes again", operator("close", date=desks.DATE), "repeated", 0),
         ("an automatic day", operator("open", automatic=True, date=desks.weekday(1)), "opened", 1),
         ("an order that waits on it", pays(0, 1, 100, 2), "queued", 0),
         ("an order that frees it", pays(1, 0, 95, 2), "settled", 2),
         ("an order that frees none", pays(1, 2, 1, 3), "settled", 0))


def answer_in(reply):
    """Returns what a reply answers, or the name of its refusal."""
    said = json.loads(reply.partition("\r\n\r\n")[2] or "{}")
    return said.get("answer") or said.get("name")


def resolutions_counted(folder, report):
    """How often the resolver is asked for each command, counted from outside."""
    book = f"{folder}/hundred.desk"
    posted = [full.Posting(1, full.CODES[0], "P-1", CENTS, desks.DATE)]
    full.write(full.Book(desks.DATE, full.OPEN, [], posted), book)
    with resolutions.Server(folder, book, MOST) as server:
        for what, sent, answer, asked in GIVEN:
            before = server.count()
            report.sees(f"the answer to {what}", answer_in(said_to(server.port, sent)), answer)
            report.sees(f"resolutions for {what}", server.count() - before, asked)
        server.kill()


def may_listen(port):
    """Returns whether a port can be listened at: not where it is taken, or where there is no right to it."""
    with contextlib.suppress(OSError), socket.create_server(("127.0.0.1", port)):
        return True
    return False


def port_served(book, port):
    """Returns at which port a server says that it listens that is given this one, and what it replies there; or how it
    is refused."""
    try:
        with desks.Server(book, 1, port=port) as server:
            said = server.port, said_to(port, desks.request("GET", "/account", desks.KEYS["BETA"]))
            server.kill()
            return said
    except desks.Broken as why:
        return str(why)


def ports(book, report):
    """Servers at ports below 1024 and at the highest ones, and at one that may not be opened."""
    account = reply_of(desks.desk("account", book, "BETA").strip())
    refused = f"the server does not listen: {runs.refused(97).err.strip()}"
    for among in (LOWEST, HIGHEST):
        port = next(filter(may_listen, among), None)
        if port:
            with socket.create_server(("127.0.0.1", port)):
                report.sees("a server at a port that is taken", port_served(book, port), refused)
        report.sees("a server at its port", port_served(book, port or among[0]), (port, account) if port else refused)


def run(_given, report):
    with desks.room() as folder:
        book = f"{folder}/bank.desk"
        desks.new_book(book, desks.KEYS, CENTS)
        for look in (order_sent_twice, refused_peers, most_connections, ports, slow_reader):
            look(book, report)
        is_counted = bool(desks.installed(PARTS[RESOLUTIONS]))
        if is_counted:
            resolutions_counted(folder, report)
    counted = f", {RESOLUTIONS}" if is_counted else ""
    report.sums(f"one order sent twice, peers that are refused or slow, the most connections, ports{counted}: "
                f"{report.right} things as they must be, {report.wrong} not")
