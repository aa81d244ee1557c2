"""Has each call of the program on the files of a book fail in turn, and looks what it says and which book it leaves.

Each command that uses a book is run again and again. In each run one call fails: the first of its kind on one file,
then the second, and so on until a run meets no fault. The files are the book, its log, its lock and its folder. The
kinds are to open, read, write, cut and sync a file, each with EIO and with ENOSPC; and to look at it, lock it, set its
rights, and have the system forget what it read, with EIO. In commands that act a call also fails together with each
later one of its kind on the file, and a write once half of one is made.

A run must end as it does without a fault, or by refusal 91, or by 95 where the lock fails; `init` must be refused if a
sync of the folder fails. It must say nothing that it does not say without a fault. What it leaves must be the book of
the commands that were answered, or of these and the one that failed, whole: the same command, given again, must do the
rest. Where a call failed that changes a file, so must what a power cut may leave after the run: there what a sync of a
file that failed was to make safe is lost, and a name is safe after any later sync of the folder. Needs a C compiler,
`cc`.

Shows: that each of these runs ends with its answer or a refusal that is allowed, and says nothing that is not in the
book; and that it leaves the book of the answered commands, or of the open one too, whole.
Cannot show: disks that give back other bytes than they took, file systems that lose a name whose folder could be
synced later, and calls that fail on two files at once.
"""
import collections
import json
import os
import secrets

from lib import crashes, desks, faults, lives, watched
from lib.checks import kept_books

NEEDS = ("cc",)
HEADER = "reference,to,amount\n"
DUES = "reference,to,amount,due\n"
KEYS = {**desks.KEYS, "DELTA": "d" * 32}
NEXT = "2024-03-05"
# the sync of its log at which an import is killed: its opening makes fewer, and then each row some
KILLED_AT = 24


def options(words):
    words.add_argument("--only", metavar="COMMAND", help="try this command alone")
    words.add_argument("--seed", help="chooses what a power cut leaves; by chance if not given")


class Books:
    """Books in a folder, as commands made them, and order files in another one."""

    def __init__(self, room, library):
        self.room, self.book, self.library = room, f"{room}/base/{lives.BOOK}", library
        os.mkdir(f"{room}/base")

    def orders(self, name, text):
        """Returns the path of an order file."""
        path = f"{self.room}/{name}.csv"
        with open(path, "w", encoding="utf-8") as it:
            it.write(text)
        return path

    def does(self, *words):
        """Runs a command over the book."""
        desks.desk(words[0], self.book, *words[1:])

    def files(self):
        """Returns the bytes of each file of the book."""
        return watched.files_in(f"{self.room}/base")

    def over(self, name, words, opens="accounts"):
        """Returns the trial of a command over the book as it is now."""
        return faults.Trial(name, words.split(), self.files(), opens)


def ring(books):
    """Has each bank order what the next one has to pay first."""
    banks = list(KEYS)
    for code, to in zip(banks, [*banks[1:], banks[0]]):
        books.does("import", code, books.orders(code, f"{HEADER}R-1,{to},5000\nR-2,{to},1\n"))


def first_day(books):
    """Returns trials over books up to the end of their first day, each made by the commands of those before it."""
    rows = "A-1,BETA,400,\nA-2,GAMA,700,\nA-3,ALFA,5,\nA-4,BETA,1,2024-03-05\n"
    orders = books.orders("rows", DUES + rows)
    yield faults.Trial("init", ["init"])
    books.does("init")
    yield books.over("add", f"add ALFA Alfa {KEYS['ALFA']}")
    for code, key in KEYS.items():
        books.does("add", code, "A Bank", key)
    yield books.over("post", "post ALFA P-1 1000")
    books.does("post", "ALFA", "P-1", "1000")
    yield books.over("open", f"open {desks.DATE}")
    books.does("open", desks.DATE)
    yield books.over("import", f"import ALFA {orders}")
    yield served(books)
    yield from after_a_kill(books, orders)
    books.does("import", "ALFA", orders)
    yield books.over("withdraw", "withdraw ALFA A-2")
    books.does("withdraw", "ALFA", "A-2")
    ring(books)
    yield books.over("credit", "credit ALFA 7")
    yield books.over("resolve", "resolve")
    yield from readings(books)


def readings(books):
    """Returns trials of all readings."""
    for words in ("account ALFA", "accounts", "queue ALFA", "order ALFA A-1", f"statement ALFA {desks.DATE}",
                  f"report {desks.DATE}"):
        yield books.over(words.split()[0], words)


def later_days(books):
    """Returns trials that end the first day and begin an automatic one, on which a resolution follows."""
    books.does("resolve")
    books.does("import", "ALFA", books.orders("late", f"{HEADER}L-1,BETA,90000\n"))
    yield books.over("cutoff", f"cutoff {desks.DATE}")
    books.does("cutoff", desks.DATE)
    yield books.over("close", f"close {desks.DATE}")
    books.does("close", desks.DATE)
    yield books.over("open an automatic day", f"open {NEXT} --automatic")
    books.does("open", NEXT, "--automatic")
    books.does("import", "GAMA", books.orders("waits", f"{HEADER}G-1,BETA,9\n"))
    frees = books.orders("frees", f"{HEADER}B-1,GAMA,3\nB-2,GAMA,8\n")
    yield books.over("import on an automatic day", f"import BETA {frees}")


def served(books):
    """Returns the trial of a server that is sent orders, a batch, commands of the operator and readings."""
    alfa, beta = KEYS["ALFA"], KEYS["BETA"]
    posting = json.dumps({"cents": 5, "code": "BETA", "reference": "P-2"})
    requests = (
        desks.order(beta, "GAMA", 1, 3),
        desks.request("GET", "/account", beta),
        desks.request("POST", "/batches", alfa, f"{HEADER}A-1,BETA,10\nA-2,GAMA,5000\nA-3,ALFA,1\n"),
        desks.request("POST", "/desk/post", desks.OPERATOR, posting),
        desks.request("POST", "/desk/resolve", desks.OPERATOR, "{}"),
        desks.request("POST", "/orders/A-2/withdraw", alfa, "{}"),
        desks.request("GET", f"/statements/{desks.DATE}", alfa),
        desks.request("GET", f"/desk/report/{desks.DATE}", desks.OPERATOR),
    )
    return faults.Trial("serve", ["serve"], books.files(), requests=requests)


def after_a_kill(books, orders):
    """Returns trials over a log that has commits, which a killed import left."""
    watch = watched.Watch(os.path.dirname(books.book), books.library)
    base = books.files()
    watch.run("import", watch.book(), "ALFA", orders, DESK_ENDS=f"sync {lives.LOG} {KILLED_AT}")
    for words in ("post ALFA P-2 7", f"import ALFA {orders}", f"statement ALFA {desks.DATE}"):
        yield books.over(f"{words.split()[0]} after a kill", words)
    watched.put(watch.folder, base)


def of_older_tables():
    """Returns trials that migrate books of earlier tables."""
    for name in ("busy", "weeks"):
        files = {lives.BOOK: desks.content(f"{kept_books.KEPT}/{name}.desk")}
        yield faults.Trial(f"migrate {name}", ["migrate"], files, "migrate")


def all_trials(room, library):
    """Returns all trials."""
    books = Books(room, library)
    return [*first_day(books), *later_days(books), *of_older_tables()]


# What is found


def run(given, report):
    seed = given.seed or secrets.token_hex(4)
    report.finds(f"seed {seed}")
    with watched.room() as room:
        library = watched.library(room)
        trials = [it for it in all_trials(room, library) if given.only in (None, it.name)]
        report.sees("commands that are tried", bool(trials), True)
        with crashes.pool() as workers:
            rooms = [f"{room}/{number}" for number in range(len(trials))]
            faults.TRIALS[:] = workers.map(faults.prepared, trials, rooms, [library] * len(trials))
        tells(faults.fail_everywhere(library, seed), report)


def tells(found, report):
    """Tells what was found. Each call that a command makes without a fault must have failed in each way."""
    for trial in faults.TRIALS:
        tells_trial(trial, found.calls, report)
    for it in found.wrong:
        report.finds(it)
    report.sees("runs that are not as they must be, and books that are not allowed", len(found.wrong), 0)
    ends = ", ".join(f"{it} {found.ends[it]}" for it in sorted(found.ends))
    count = sum(found.calls.values())
    report.sums(f"{count} faults in {len(faults.TRIALS)} commands: {ends}; {found.opened} disks were opened; "
                f"{len(found.wrong)} runs were not as they must be")


def tells_trial(trial, calls, report):
    """Tells how many calls of which kind and in which way failed in a trial."""
    of_kinds, of_ways = collections.Counter(), collections.Counter()
    for (kind, name), count in sorted(trial.calls.items()):
        of_kinds[kind] += count
        for way in faults.ways_of(trial, kind):
            of_ways[way] += calls[trial.name, kind, name, way]
            report.sees(f"{trial.name}: calls to {kind} {name}, {way}", calls[trial.name, kind, name, way], count)
    missing = [it for it in faults.kinds_of(trial) if not of_kinds[it]]
    report.sees(f"{trial.name}: kinds of calls that must be among them", missing, [])
    told = ", ".join(f"{it} {of_kinds[it]}" for it in faults.KINDS if of_kinds[it])
    report.finds(f"{trial.name}: {told}; {', '.join(f'{way} {of_ways[way]}' for way in faults.WAYS)}")
