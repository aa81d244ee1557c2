"""Cuts the power of a disk under the program at chosen moments, and looks which book the next opening finds.

Runs of the program are watched call by call: each write, cut and sync of the book and its log, each name that is made,
each sync of the folder, and each line or reply that left the program. For a moment of a run a disk is built: each file
as its last sync made it safe, and of what came later any part, in any order: a write whole, some of its sectors of 512
bytes, a part of one sector, or nothing of it; any length between; bytes that nobody wrote past what is safe; and a name
may be missing that no sync of the folder made safe. The program opens the disk. It must find the book of the commands
that were answered, or of these and the one that was open, whole. A command is answered once something was said after
it, or something was written for a later one.

Then one sync is left out after another, as if the program had not made it. The check must find each that something
rests on, and says of each other why no disk here shows it. Needs a C compiler, `cc`.

Shows: that each of these disks opens as the book of what was answered, or with the open command too, whole; and that a
sync that is left out is found where something rests on it.
Cannot show: what a disk does that forgets what was synced, and disks and moments that chance did not choose.
"""
import concurrent.futures
import os
import random
import secrets

from lib import crash_images, crashes, desks, lives, unsynced, watched
from lib.checks import kept_books

NEEDS = ("cc",)
KINDS = ("init", "import", "resolve", "close", "serve", "opening", "migrate", "other")
IMAGES = 6000
HEADER = "reference,to,amount\n"
KEYS = {**desks.KEYS, "DELTA": "d" * 32}
CLIENTS = 4
# how often a run is killed at a sync of its log that is chosen by chance, and between which: its opening makes 17
KILLS, SYNCS = 6, (18, 36)


def options(words):
    words.add_argument("--images", dest="tried", type=int, help=f"how many disks are opened: {IMAGES} if not given")
    words.add_argument("--seed", help="chooses the moments and the parts; by chance if not given")


# The runs


def ring():
    """Returns the banks, each with the one that it pays."""
    banks = list(KEYS)
    return zip(banks, [*banks[1:], banks[0]])


class Lives:
    """The runs that are watched, in folders of a room, and what they share."""

    def __init__(self, room, chance):
        self.room, self.chance, self.lives = room, chance, []
        self.library = watched.library(room)
        self.folder = f"{room}/folder"
        os.mkdir(self.folder)

    def add(self, name, files=None, opens="accounts"):
        """Begins one more life of a book."""
        life = lives.Life(name, f"{self.room}/{len(self.lives)}", self.library, files, opens)
        self.lives.append(life)
        return life

    def orders(self, name, rows):
        """Returns the path of an order file."""
        path = f"{self.room}/{name}.csv"
        with open(path, "w", encoding="utf-8") as it:
            it.write(HEADER + "".join(f"{row}\n" for row in rows))
        return path

    def ring(self, tag):
        """Returns the order files, with a tag in their references, of banks that wait for one another."""
        for code, to in ring():
            yield code, self.orders(f"ring-{code}", [f"R-{tag}-{code},{to},5000", f"S-{tag}-{code},{to},1"])

    def many(self):
        """Returns an order file of one bank, whose orders settle and wait."""
        rows = [f"M-{it},{'BETA' if it % 3 else 'GAMA'},{1 if it < 12 else 900 + it}" for it in range(18)]
        return self.orders("many", rows)

    def base(self, *choice):
        """Returns the files of a book with an open day, whose log is not there."""
        book = f"{self.folder}/{lives.BOOK}"
        desks.remove(book)
        desks.new_book(book, KEYS, 1000, "A Bank", *choice)
        return {lives.BOOK: desks.content(book)}


def day(made):
    """The life of a book from its making on, with a day that ends."""
    life = made.add("a day")
    life.run("init", "init")
    for code, key in KEYS.items():
        life.run("other", "add", code, "A Bank", key)
    life.run("other", "post", "ALFA", "P-1", "1000")
    life.run("other", "open", desks.DATE)
    for code, orders in made.ring(1):
        life.run("import", "import", code, orders)
    life.run("resolve", "resolve")
    life.run("import", "import", "ALFA", made.many())
    life.run("other", "credit", "ALFA", "7")
    life.run("resolve", "resolve")
    life.run("other", "withdraw", "ALFA", "M-17")
    life.run("other", "cutoff", desks.DATE)
    life.run("close", "close", desks.DATE)
    life.run("other", "open", "2024-03-05", "--automatic")
    for code, orders in made.ring(2):
        life.run("import", "import", code, orders)


def ask(port, code, to, count):
    """Sends orders of a bank and readings, one after another. Returns the bytes of all replies, or those until the
    server was gone."""
    replies = bytearray()
    try:
        for number in range(count):
            replies += desks.asked(port, desks.order(KEYS[code], to, number, 1 + 300 * (number % 4)))
            if number % 5 == 0:
                replies += desks.asked(port, desks.request("GET", "/account", KEYS[code]))
    except (OSError, desks.Broken):
        return None
    return bytes(replies)


def serve(life, count, **more):
    """Serves four clients, each with orders of its own, to the end or until the server is killed."""
    watch, connections = life.watch, CLIENTS * (count + (count + 4) // 5)
    port = str(desks.free_port())
    words = ["serve", watch.book(), "--port", port, "--count", str(connections), "--operator-key", desks.OPERATOR]
    with desks.Listening([desks.DESK, *words], watch.environment(**more)) as server, \
            concurrent.futures.ThreadPoolExecutor(CLIENTS) as lanes:
        tasks = [lanes.submit(ask, server.port, code, to, count) for code, to in ring()]
        replies = [it.result() for it in tasks]
    events = watch.events()
    said = sum(len(it.data) for it in events if it.kind == watched.SAID and it.name == "peer")
    if not more and (None in replies or said != sum(map(len, replies))):
        raise desks.Broken(f"{life.name}: {said} bytes were noted of replies that have {sum(map(len, replies))}")
    life.takes("serve", "serve", events)


def served(made):
    """Servers over a book that was moved in without its log, on a plain day and on an automatic one."""
    for name, choice in {"a plain day served": (), "an automatic day served": ("--automatic",)}.items():
        life = made.add(name, made.base(*choice))
        serve(life, 20 if choice else 50)
        life.run("close" if choice else "resolve", "cutoff" if choice else "resolve", *([desks.DATE] if choice else []))


def killed(made):
    """Runs that are killed before a sync, and what then opens the book as the kill left it; it is killed too."""
    base, orders = made.base(), made.many()
    for it in range(KILLS):
        life = made.add(f"killed {it + 1}", base)
        at = made.chance.randrange(*SYNCS)
        if it % 2:
            serve(life, 20, DESK_ENDS=f"sync {lives.LOG} {at}")
        else:
            life.run("import", "import", "ALFA", orders, DESK_ENDS=f"sync {lives.LOG} {at}")
        life.run("opening", "accounts", DESK_ENDS=f"sync {lives.LOG} {made.chance.randrange(1, 14)}")
        life.run("opening", "statement", "ALFA", desks.DATE)
        life.run("opening", "import", "ALFA", orders, DESK_ENDS=f"sync {lives.BOOK} {made.chance.randrange(1, 8)}")
        life.run("opening", "queue", "ALFA")


def migrated(made):
    """Books of earlier tables, without a log beside them, that are migrated."""
    for name in ("busy", "weeks"):
        files = {lives.BOOK: desks.content(f"{kept_books.KEPT}/{name}.desk")}
        life = made.add(f"{name} migrated", files, "migrate")
        life.run("migrate", "migrate")
        life = made.add(f"{name} killed", files, "migrate")
        life.run("migrate", "migrate", DESK_ENDS=f"sync {lives.LOG} {made.chance.randrange(12, 20)}")
        life.run("opening", "migrate")


SCENARIOS = (day, served, killed, migrated)


# What is found


def run(given, report):
    seed, images = given.seed or secrets.token_hex(4), given.tried or IMAGES
    report.finds(f"seed {seed}")
    with watched.room() as room:
        made = Lives(room, random.Random(seed))
        for scenario in SCENARIOS:
            scenario(made)
        crashes.LIVES[:] = made.lives
        with crashes.pool() as workers:
            judged = list(workers.map(crashes.judged, range(len(made.lives))))
        crashes.LIVES[:] = [life for life, _ in judged]
        for life, acted in judged:
            tells_life(life, acted, report)
        found = crashes.cut_everywhere(images, KINDS, seed)
        tells_disks(found, images, report)
        shown, tried = unsynced.leave_out(seed, report)
    report.sums(f"{images} disks, of which {len(found.wrong)} hold another book; {shown} of {tried} syncs that were "
                f"left out are found; {report.right} things as they must be, {report.wrong} not")


def tells_life(life, acted, report):
    """Looks whether each command that acted made a book and was answered, where no run was killed."""
    commands = len(life.books) - 1
    report.sees(f"{life.name}: answers to {commands} commands", acted == commands or "killed" in life.name, True)
    report.tells(f"{life.name}: {len(life.sessions)} runs, {len(life.events)} events, {commands} commands that acted")


def tells_disks(found, images, report):
    """Tells what was found on the disks. Each kind of run and of part must be among them."""
    for it in found.wrong[:20]:
        report.finds(it)
    count = sum(found.kinds.values())
    report.sees("disks that were opened", count, images)
    for what, names, counts in (("run", KINDS, found.kinds), ("part", crash_images.PARTS, found.parts)):
        report.sees(f"kinds of {what} that were tried", [it for it in names if counts[it]], list(names))
        report.finds("; ".join(f"{it} {counts[it]}" for it in names))
    report.sees("disks on which another book was found", len(found.wrong), 0)
