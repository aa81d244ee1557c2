"""Meets each refusal of a run, help, words that are no command line, and full streams, each stream by itself.

An answer and help must stand on standard output alone, and end with 0. A refusal must stand on standard error alone, in
one line, and end with the status that SPECIFICATION.md lists. The bytes of the book's file must change where a command
acted, and in no other run. Book, lock and order file must be those of the very names that are given, where names begin
and end with a space, or are links, too. Each order of the longest order file must be answered, and be in the book. A
server must not wait for a peer to close that has its whole reply. Without a C compiler, `cc`, lack of memory is left
out.

Shows: that the program tells each answer and each refusal on the one stream where it belongs, with its exit status, and
takes the files that its words name.
Cannot show: runs with other words than these, and refusals of a book that is full.
"""
import contextlib
import fcntl
import glob
import os
import re
import shlex
import shutil
import socket
import sqlite3
import subprocess
import time

import kit
from lib import desks, runs, stated
from lib.checks import migrations

MEMORY = "lack of memory"
PARTS = {MEMORY: "cc"}
BOOK = "bank.desk"
HEADER = "reference,to,amount\n"
RESULTS = "reference,result,number,detail"
FILES = {
    "empty.csv": "",
    "none.csv": HEADER,
    "bad.csv": f"{HEADER}A-1,BETA,100\nA-2,BETA\n",
    "long.csv": HEADER + "\n" * 65536,
    "alfa.csv": f"{HEADER}A-1,BETA,100\nA-1,BETA,99\nA-2,ALFA,5\nA-3,ZETA,5\nA-4,GAMA,80\n",
    "dues.csv": "reference,to,amount,due\nD-1,BETA,1,2024-03-04\nD-2,BETA,1,2024-03-09\nD-3,BETA,1,2024-03-05\n",
    "beta.csv": f"{HEADER}B-1,GAMA,200\n",
    "late.csv": f"{HEADER}B-2,GAMA,1\n",
    "many.csv": HEADER + "".join(f"A-{it},BETA,1\n" for it in range(1, 401)),
}
A, B, C, D = (it * 32 for it in "abcd")
SERVE = f"serve @ --port {{}} --count 1 --operator-key {desks.OPERATOR}"
# Runs over one book, and what each answers: `!` stands before the number of a refusal and what follows its name, and
# `=` before the answer of a run that changes nothing.
RUNS = [
    "init @ => initialised",
    "init @ => !96",
    f"add @ AL Alfa {A} => !30",
    f"add @ ALFA ' Alfa' {A} => !33",
    f"add @ ALFA Alfa {A}0 => !34",
    f"add @ ALFA Alfa {A} => added",
    f"add @ ALFA Alfa {A} => =repeated",
    f"add @ ALFA Alfa {B} => !10",
    f"add @ BETA Beta {A} => !11",
    f"add @ BETA Beta {B} => added",
    f"add @ GAMA Gama {C} => added",
    "post @ ZETA P-1 1 => !1",
    "post @ ALFA p-1 1 => !31",
    "post @ ALFA P-1 0 => !32",
    "post @ ALFA P-1 1 --debit => !6",
    "post @ ALFA P-1 150 => posted 1",
    "post @ ALFA P-1 150 => =repeated",
    "post @ BETA P-1 150 => !4",
    "post @ BETA P-2 1000000000000000 => !13",
    "resolve @ => !14",
    "open @ 2024-02-30 => !35",
    "open @ 2024-03-03 => !16",
    "open @ 2024-03-04 => opened",
    "open @ 2024-03-04 => =repeated",
    "open @ 2024-03-04 --automatic => !14",
    "credit @ ALFA 100 => credit set",
    "import @ ALFA absent.csv => !98",
    "import @ ALFA empty.csv => !40",
    "import @ ALFA bad.csv => !41 2",
    "import @ ALFA none.csv => !42",
    "import @ ALFA long.csv => !63",
    f"import @ ALFA alfa.csv => {RESULTS} / A-1,settled,1,1 / A-1,refused,,4 / A-2,refused,,3 / A-3,refused,,2 / "
    "A-4,settled,2,2",
    f"import @ ALFA alfa.csv => ={RESULTS} / A-1,repeated,1,settled / A-1,refused,,4 / A-2,refused,,3 / "
    "A-3,refused,,2 / A-4,repeated,2,settled",
    f"import @ ALFA dues.csv => {RESULTS} / D-1,refused,,20 / D-2,refused,,16 / D-3,held,3,2024-03-05",
    f"import @ BETA beta.csv => {RESULTS} / B-1,queued,4,1",
    "credit @ ALFA 29 => !6",
    "account @ ZETA => !1",
    "order @ ALFA A-9 => !9",
    "withdraw @ ALFA A-9 => !9",
    "withdraw @ ALFA A-1 => !17",
    "cutoff @ 2024-03-05 => !15",
    "close @ 2024-03-04 => !14",
    "cutoff @ 2024-03-04 => cut off",
    "cutoff @ 2024-03-04 => =repeated",
    f"import @ BETA late.csv => ={RESULTS} / B-2,refused,,5",
    "close @ 2024-03-05 => !15",
    "post @ BETA P-2 100 => posted 2",
    "close @ 2024-03-04 => !18",
    "resolve @ => resolved mark 3 count 1 value 200",
    "resolve @ => =nothing",
    "close @ 2024-03-04 => !19 ALFA 1",
    "post @ ALFA P-3 30 => posted 3",
    "close @ 2024-03-04 => closed rejected 0",
    "close @ 2024-03-04 => =repeated",
    "open @ 2024-03-04 => !15",
    "open @ 2024-03-05 --automatic => opened / auto mark 4 count 1 value 1",
    "migrate @ => =repeated",
    *[f"add @ BANK{it} Bank {it:032x} => added" for it in range(97)],
    f"add @ ZETA Zeta {D} => !12",
]
READINGS = ["account @ ALFA", "accounts @", "queue @ ALFA", "order @ ALFA A-1", "statement @ ALFA 2024-03-04",
            "report @ 2024-03-04", "held @ ALFA", "waiting @ ALFA", "queues @", "status @", "orders @ 2024-03-04",
            "marks @ 2024-03-04"]
# every command, in words that are well formed
EACH = [*migrations.OTHERS, "migrate @", "init @"]
MISUSED = ["", "pay @", "init", "post @ ALFA P-9", "init --unknown", "explain 21", SERVE.format(0),
           *(f"{it} more" for it in EACH if not it.startswith("serve"))]
VERSION = r"desk \d+\.\d+\.\d+, tables \d+, rattle-kit-\w+ {}, commit (\$Format:%H\$|[0-9a-f]{{40}})\n"
# names that begin and end with a space, and runs over a book with such a name
SPACED, ORDERS = f" {BOOK} ", " alfa.csv "
OF_SPACED = [
    "init @ => initialised",
    "init @ => !96",
    f"add @ ALFA Alfa {A} => added",
    f"add @ BETA Beta {B} => added",
    "post @ ALFA P-1 150 => posted 1",
    "open @ 2024-03-04 => opened",
    f"import @ ALFA '{ORDERS}' => {RESULTS} / S-1,settled,1,1",
]
# runs by a link to that book, whose order file is a link too
OF_LINK = [
    "init @ => !96",
    "post @ ALFA P-1 150 => =repeated",
    "post @ ALFA P-2 1 => posted 2",
    f"import @ ALFA link.csv => ={RESULTS} / S-1,repeated,1,settled",
]
# the most bytes of an order file, and a row of one
LONGEST, LONG_ROW = 65536, "L-{:02},BETA,1"
# A run meets these refusals in rows of result files alone; this one after 999999999 postings; and this one never.
OF_ROWS, AT_THE_LAST_NUMBER, NEVER = {2, 3, 5, 7, 20}, {8}, {92}
# a shell that starts a program whose files may not grow past half a mebibyte
LIMITED = ["sh", "-c", "trap '' XFSZ; ulimit -f 1024; exec \"$0\" \"$@\""]
FIRST_REQUESTS = 40
# how long a request may take beside a peer that does not close, in seconds: a server would wait for it for one
SOON = 0.5


def wanted(answer):
    """Returns how a run must end that is to have this answer, and whether it changes the book."""
    if answer.startswith("!"):
        number, _, detail = answer[1:].partition(" ")
        return runs.refused(int(number), detail), False
    return runs.Ran(0, answer.removeprefix("=").replace(" / ", "\n") + "\n"), not answer.startswith("=")


class Edges:
    """A book of a name in a folder of its own, and the refusals that were met."""

    def __init__(self, folder, report, book=BOOK):
        self.folder, self.sees, self.met, self.book = folder, report.sees, set(), book
        for name, text in FILES.items():
            self.makes(name, text)

    def content(self):
        """Returns the bytes of the book's file, or nothing where there is none."""
        path = f"{self.folder}/{self.book}"
        return desks.content(path) if os.path.exists(path) else None

    def tried(self, line, book=None, **how):
        """Runs the program with the words of a line, and returns how that ended, and whether it changed the book."""
        before, book = self.content(), book or self.book
        ran = runs.run(*[book if it == "@" else it for it in shlex.split(line)], cwd=self.folder, **how)
        refusal = runs.REFUSED.fullmatch(ran.err)
        self.met |= {int(refusal[1])} if refusal else set()
        return ran, self.content() != before

    def follows(self, line):
        """Runs a line that has its answer behind it."""
        words, answer = line.split(" => ")
        self.sees(words, self.tried(words), wanted(answer))

    def is_refused(self, line, book, number, detail=""):
        """Runs a line over another file, or while another run holds the lock."""
        self.sees(f"{line} of {book}", self.tried(line, book), (runs.refused(number, detail), False))

    def makes(self, name, text):
        """Makes a file with this text in the folder."""
        with open(f"{self.folder}/{name}", "w", encoding="utf-8") as it:
            it.write(text)

    def names(self):
        """Returns the names of what stands in the folder, in their order."""
        return sorted(os.listdir(self.folder))

    @contextlib.contextmanager
    def locks(self, name):
        """Holds a lock of this name in the folder."""
        with open(f"{self.folder}/{name}", "ab") as lock:
            fcntl.flock(lock, fcntl.LOCK_EX)
            yield

    def prints(self, line):
        """Runs a line that is to print something and to change nothing, and returns what it prints."""
        ran, changes = self.tried(line)
        self.sees(line, (ran.status, ran.out != "", ran.err, changes), (0, True, "", False))
        return ran.out


def other_files(edges):
    """Runs over a file that is in use, missing, a folder, of two names, or of an unsound book; a port that is taken."""
    with edges.locks(BOOK + desks.LOCK):
        for line in EACH:
            edges.is_refused(line, BOOK, 95)
    for line in EACH[:-1]:
        edges.is_refused(line, "absent.desk", 93)
    edges.sees("absent.desk is made", os.path.exists(f"{edges.folder}/absent.desk"), False)
    os.mkdir(f"{edges.folder}/folder.desk")
    for line in EACH[:-1]:
        edges.is_refused(line, "folder.desk", 91)
    edges.sees("files in folder.desk", os.listdir(f"{edges.folder}/folder.desk"), [])
    os.link(f"{edges.folder}/{BOOK}", f"{edges.folder}/linked.desk")
    edges.is_refused("report @ 2024-03-04", "linked.desk", 91)
    os.remove(f"{edges.folder}/linked.desk")
    unsound = shutil.copy(f"{edges.folder}/{BOOK}", f"{edges.folder}/unsound.desk")
    with contextlib.closing(sqlite3.connect(unsound)) as book, book:
        book.execute("UPDATE participant SET balance = balance + 1")
    edges.is_refused("report @ 2024-03-04", "unsound.desk", 94, "14")
    with socket.create_server(("127.0.0.1", 0)) as taken:
        line = SERVE.format(taken.getsockname()[1])
        edges.follows(f"{line} => !97")
        is_misused(edges, f"{line} more")


def links(edges):
    """Links in the place of a book and of an order file: to themselves, and to nothing."""
    os.symlink("loop.desk", f"{edges.folder}/loop.desk")
    for line in EACH:
        edges.is_refused(line, "loop.desk", 91)
    os.symlink("none.desk", f"{edges.folder}/nowhere.desk")
    for line in EACH[:-1]:
        edges.is_refused(line, "nowhere.desk", 93)
    edges.sees("none.desk is made", os.path.lexists(f"{edges.folder}/none.desk"), False)
    for name in ("loop.desk", "nowhere.desk", "folder.desk"):
        edges.follows(f"import @ ALFA {name} => !98")


def spaced_names(edges):
    """A book whose name begins and ends with a space, and an order file of such a name. Beside the order file stands
    one without the spaces, and then so does a book, whose lock is held."""
    edges.makes(ORDERS, f"{HEADER}S-1,BETA,100\n")
    before = edges.names()
    for line in OF_SPACED:
        edges.follows(line)
    made = sorted([*before, *(f"{SPACED}{it}" for it in ("", desks.LOG, desks.LOCK))])
    edges.sees(f"files beside '{SPACED}'", edges.names(), made)
    if edges.content() is None:
        return
    edges.sees(f"'{ORDERS}' that is missing", edges.tried("import @ ALFA ' none.csv '"), wanted("!98"))
    with edges.locks(SPACED + desks.LOCK):
        for line in EACH:
            edges.is_refused(line, SPACED, 95)
    edges.is_refused("post @ ALFA P-1 150", BOOK, 93)
    other = shutil.copy(f"{edges.folder}/{SPACED}", f"{edges.folder}/{BOOK}")
    content = desks.content(other)
    with edges.locks(BOOK + desks.LOCK):
        edges.follows("credit @ BETA 7 => credit set")
    edges.sees(f"the bytes of {BOOK}", desks.content(other) == content, True)


def linked_names(edges):
    """A link to a book, and one to an order file. The lock has the link's name. So such a run does not wait for a
    server by the book's own name, and is refused by the database's locks."""
    os.symlink(SPACED, f"{edges.folder}/link.desk")
    os.symlink(ORDERS, f"{edges.folder}/link.csv")
    linked = Edges(edges.folder, edges, "link.desk")
    for line in OF_LINK:
        linked.follows(line)
    made = sorted(glob.glob("link.desk*", root_dir=edges.folder))
    edges.sees("files of link.desk", made, ["link.desk", f"link.desk{desks.LOCK}"])
    edges.sees("link.desk is a link", os.path.islink(f"{edges.folder}/link.desk"), True)
    with desks.Server(f"{edges.folder}/{SPACED}", 1) as server:
        linked.is_refused("post @ ALFA P-2 1", "link.desk", 91)
        server.kill()


def long_rows(count=LONGEST // 4096):
    """Returns the rows of an order file that has an order in each 4,096 bytes, the last one at its very end, and its
    bytes. Empty lines stand between the rows."""
    rows = [LONG_ROW.format(it) for it in range(1, count + 1)]
    text = HEADER
    for number, row in enumerate(rows, 1):
        text = text.ljust(LONGEST // count * number - len(row), "\n") + row
    return rows, text


def repeats(rows):
    """Returns the results of rows that have settled, and come again."""
    return [f"{row.split(',')[0]},repeated,{it},settled" for it, row in enumerate(rows, 1)]


def long_orders(edges):
    """An order file of as many bytes as one may have, of which each order is answered and in the book, one of a byte
    more, which is refused, and one that can be read only once."""
    rows, text = long_rows()
    long = Edges(edges.folder, edges, "long.desk")
    desks.new_book(f"{long.folder}/{long.book}", desks.KEYS, len(rows))
    long.makes("longest.csv", text)
    long.makes("longer.csv", f"{text}\n")
    long.follows("import @ ALFA longer.csv => !63")
    answers = [f"{row.split(',')[0]},settled,{it},{it}" for it, row in enumerate(rows, 1)]
    long.follows(f"import @ ALFA longest.csv => {' / '.join([RESULTS, *answers])}")
    # (what is read once from such a file, is there no more)
    os.mkfifo(f"{long.folder}/once.csv")
    with subprocess.Popen(["cp", f"{long.folder}/longest.csv", f"{long.folder}/once.csv"]):
        long.follows(f"import @ ALFA once.csv => ={' / '.join([RESULTS, *repeats(rows)])}")
    sent = re.findall(r"^sent +\d+ (\S+)", long.prints(f"statement @ ALFA {desks.DATE}"), re.M)
    edges.sees("orders of longest.csv in the book", sent, [it.split(",")[0] for it in rows])


def other_names(edges):
    """A book and an order file with such names, in a folder of their own, and links to them."""
    folder = f"{edges.folder}/names"
    os.mkdir(folder)
    named = Edges(folder, edges, SPACED)
    spaced_names(named)
    linked_names(named)


def is_misused(edges, line):
    """Runs words that are no command line."""
    ran, changes = edges.tried(line)
    found = (ran.status, ran.out, ran.err != "", bool(runs.REFUSED.match(ran.err)), changes)
    edges.sees(f"misused: {line}", found, (2, "", True, False, False))


def helps(edges):
    """Help and the version, and words that are no command line."""
    commands = {it.split(" ")[0] for it in EACH} | {"explain"}
    edges.prints("--help")
    version = VERSION.format(re.escape(kit.logic()))
    edges.sees("--version", bool(re.fullmatch(version, edges.prints("--version"))), True)
    for line in ("{} --help", "help {}"):
        texts = {edges.prints(line.format(it)) for it in commands}
        edges.sees(f"texts of {line}", len(texts), len(commands))
    for line in MISUSED:
        is_misused(edges, line)
    ran = runs.run(b"\xff", cwd=edges.folder)
    edges.sees("a word that is not UTF-8", (ran.status, ran.out, ran.err != ""), (2, "", True))


def explanations(edges):
    """What is said of each refusal by its number, and of all of them one after another."""
    each = "".join(edges.prints(f"explain {number}") for number in sorted(stated.refusals()))
    edges.sees("explain", edges.prints("explain"), each)


def full_streams(edges):
    """Runs whose standard output or standard error takes no byte, and an import that stops."""
    with open("/dev/full", "wb") as full:
        edges.sees("a posting to no output", edges.tried("post @ ALFA P-9 1", stdout=full), (runs.Ran(3), True))
        edges.follows("post @ ALFA P-9 1 => =repeated")
        for line in ("--help", "--version", "explain", *READINGS, SERVE.format(desks.free_port())):
            edges.sees(f"{line} to no output", edges.tried(line, stdout=full), (runs.Ran(3), False))
        for line, status in (("post @ ZETA P-9 1", 1), ("init @", 3), ("pay @", 2)):
            edges.sees(f"{line} to no error", edges.tried(line, stderr=full), (runs.Ran(status), False))
    desks.new_book(f"{edges.folder}/stops.desk", desks.KEYS, 400)
    ran, _ = edges.tried("import @ ALFA many.csv", "stops.desk", before=LIMITED)
    is_stopped = ran.out.startswith(f"{RESULTS}\nA-1,settled,1,1\n") and ran.out.endswith(",stopped,,91\n")
    edges.sees("an import that stops", (ran.status, is_stopped, ran.err), (3, True, ""))


def open_peer(edges):
    """A request after one whose peer has its whole reply, and keeps the connection open."""
    reading = desks.request("GET", "/account", desks.KEYS["ALFA"])
    with desks.Server(f"{edges.folder}/stops.desk", 3) as server:
        with socket.create_connection(("127.0.0.1", server.port), timeout=desks.SECONDS) as peer:
            peer.sendall(reading)
            reply = b"".join(iter(lambda: peer.recv(65536), b""))
            start = time.monotonic()
            edges.sees("the reply beside an open connection", server.asked(reading), reply)
            edges.sees("a reply that does not wait for it", time.monotonic() - start < SOON, True)
        edges.sees("the reply to the last request", server.asked(reading), reply)
        edges.sees("the end of the server", server.ended()[0], 0)


def lack_of_memory(edges):
    """A reading of which each of the first requests for memory is refused in turn."""
    library = desks.library("counting", edges.folder)
    ample, refusals = edges.tried(READINGS[0]), 0
    for number in range(1, FIRST_REQUESTS + 1):
        env = {**os.environ, "LD_PRELOAD": library, "DESK_REFUSED_REQUEST": str(number)}
        found = edges.tried(READINGS[0], env=env)
        refusals += found != ample
        edges.sees(f"{READINGS[0]} without request {number}", found, ample if found == ample else wanted("!90"))
    edges.sees("requests that are done without", refusals > 0, True)


def run(_given, report):
    with desks.room() as folder:
        edges = Edges(folder, report)
        for line in RUNS:
            edges.follows(line)
        for line in READINGS:
            edges.prints(line)
        other_files(edges)
        links(edges)
        long_orders(edges)
        helps(edges)
        explanations(edges)
        full_streams(edges)
        open_peer(edges)
        is_whole = bool(desks.installed(PARTS[MEMORY]))
        if is_whole:
            lack_of_memory(edges)
        other_names(edges)
    must = set(runs.refusals()) - OF_ROWS - AT_THE_LAST_NUMBER - NEVER - (set() if is_whole else {90})
    report.sees("refusals that were met", sorted(edges.met), sorted(must))
    report.sums(f"{len(edges.met)} refusals of runs, help, full streams, {MEMORY if is_whole else 'ample memory'}: "
                f"{report.right} things as they must be, {report.wrong} not")
