"""Has the desk report on damaged and foreign files, and migrate such files of older books.

Makes a book's files, whose day is automatic, as stock tools and damage leave them, and asks the desk for a report on
each. Then it makes the same files of a book with tables of each earlier version, and has the desk migrate each. Prints
for each file its length, what the desk answers, how long that took, and what became of the files beside it.

Something is otherwise where a file was changed by a byte (but by its own log, or since it was migrated), no report can
be made of one that was migrated, an answer is none of a report, `migrated`, 91, 93 and 94, or a run did not end within
a minute. Needs the stock `sqlite3`.

Shows: that each of these files is reported on, migrated or refused, soon, and that a refused one keeps each byte.
Cannot show: files of other kinds.
"""
import random
import re
import shutil
import subprocess
import time

from lib import desks, hostile

NEEDS = ("sqlite3",)
REPORT, MIGRATE = ("report", desks.DATE), ("migrate",)
ANSWER = re.compile(r"refused 91 StoreFault\n|refused 93 NotADeskFile\n|refused 94 Inconsistent ([1-9]|1[0-6])\n")
SECONDS = 60
CHANGED_BY_CHANCE = 1000
ORDERS = "reference,to,amount\nA-1,BETA,100\nA-2,GAMA,50\nA-3,BETA,25\nA-4,GAMA,25\n"


def options(words):
    told = "try those files alone whose names have this text; `chance` for those that chance changes"
    words.add_argument("--only", action="append", default=[], metavar="TEXT", help=f"{told}; may be given again")


def make_book(book, *choice):
    """Makes a book with a day of this choice in which orders have settled, one is withdrawn and one waits."""
    desks.new_book(book, desks.KEYS, 150, "A Bank", *choice)
    with open(f"{book}.csv", "w", encoding="utf-8") as it:
        it.write(ORDERS)
    desks.desk("import", book, "ALFA", f"{book}.csv")
    desks.desk("withdraw", book, "ALFA", "A-3")


def contents(book):
    """Returns the bytes of each of a book's files, by the end of its name."""
    return {it: desks.content(book + it) for it in desks.parts_of(book)}


def asked(book, request=REPORT):
    """Returns what the desk says of the file, and after how many seconds."""
    start = time.monotonic()
    try:
        words = [desks.DESK, request[0], book, *request[1:]]
        ran = subprocess.run(words, capture_output=True, text=True, timeout=SECONDS, check=False)
    except subprocess.TimeoutExpired:
        return "NO END", SECONDS
    took = time.monotonic() - start
    if ran.returncode == 0 and not ran.stderr:
        if request == REPORT and ran.stdout.startswith(f"report {desks.DATE}\n"):
            return "report", took
        if request == MIGRATE and ran.stdout == "migrated\n":
            return "migrated", took
    if ran.returncode == 3 and ANSWER.fullmatch(ran.stderr) and not ran.stdout:
        return ran.stderr.strip(), took
    return f"{ran.returncode}: {ran.stdout!r} {ran.stderr!r}", took


def became(before, after):
    """Returns what became of the files beside the book's."""
    parts = []
    for end in desks.BESIDE:
        old, new = before.get(end), after.get(end)
        if old != new:
            length = "gone" if new is None else f"{len(new)} bytes"
            parts.append(f"{end} {'new' if old is None else 'changed'}, {length}")
    return "; ".join(parts)


def is_well(book, said, is_kept, is_moved_in):
    """Returns whether an answer goes with what became of the file."""
    if said == "migrated":
        return asked(book)[0] == "report"
    return is_kept != is_moved_in and (said == "report" or ANSWER.fullmatch(f"{said}\n") is not None)


class Trial:
    """The files made of a good book, of which this is asked: how many had each answer, and the longest time."""

    def __init__(self, folder, good, request, report):
        self.book, self.good, self.request, self.report = f"{folder}/tried.desk", good, request, report
        self.met, self.most = {}, 0

    def ask(self):
        """Asks of the file, and returns the answer and the time."""
        said, took = asked(self.book, self.request)
        self.met[said] = self.met.get(said, 0) + 1
        self.most = max(self.most, took)
        return said, took

    def told(self, wrong):
        """Returns what all files came to, and begins again."""
        met = ", ".join(f"{count} {said}" for said, count in sorted(self.met.items()))
        told = f"{met}; {wrong} changed or answered otherwise; at most {self.most:.2f} s"
        self.met, self.most = {}, 0
        return told

    def try_file(self, name, make):
        """Makes a file from the good one, asks of it, and judges what became of it."""
        desks.remove(self.book)
        shutil.copy(self.good, self.book)
        make(self.book)
        before = contents(self.book)
        said, took = self.ask()
        after = contents(self.book)
        is_kept = before[""] == after.get("")
        is_moved_in = name == hostile.MOVED_IN and self.request == REPORT
        kept = "" if is_kept or said == "migrated" else "; its log was moved in" if is_moved_in else "; CHANGED"
        line = f"{name:58} {len(before['']):9}  {said}{kept}  {took:.2f} s  {became(before, after)}"
        self.report.judges(is_well(self.book, said, is_kept, is_moved_in), line)

    def try_files(self, only):
        """Tries each file, or those whose names have one of these texts."""
        files = [it for it in hostile.all_files() if not only or any(text in it[0] for text in only)]
        wrong = self.report.wrong
        for name, make in files:
            self.try_file(name, make)
        if files:
            self.report.finds(f"{len(files)} files by name: {self.told(self.report.wrong - wrong)}")
        elif "chance" not in only:
            raise desks.Broken(f"no file has one of these in its name: {', '.join(only)}")

    def try_by_chance(self, count):
        """Tries this many files that chance has changed."""
        chance, wrong = random.Random(1), self.report.wrong
        desks.stock(self.good, *hostile.FREED)
        data = desks.content(self.good)
        for at in range(count):
            desks.remove(self.book)
            changed = hostile.changed_by(chance, data)
            for _ in range(chance.randrange(3)):
                changed = hostile.changed_by(chance, changed) if len(changed) > hostile.page_size(changed) else changed
            with open(self.book, "wb") as it:
                it.write(changed)
            said, _ = self.ask()
            is_good = is_well(self.book, said, contents(self.book)[""] == changed, False)
            self.report.counts(is_good)
            if not is_good:
                self.report.finds(f"file {at + 1} as chance changes it: {said}")
        self.report.finds(f"{count} files as chance changes them: {self.told(self.report.wrong - wrong)}")


def run(given, report):
    with desks.room() as folder:
        good = f"{folder}/good.desk"
        make_book(good, "--automatic")
        trials = [("A report on each:", good, REPORT)]
        for version, made in desks.OLDER.items():
            older = f"{folder}/older{version}.desk"
            make_book(older)
            desks.stock(older, made)
            trials.append((f"A migration of each, made of a book of version {version}:", older, MIGRATE))
        for told, book, request in trials:
            report.finds(told)
            trial = Trial(folder, book, request, report)
            trial.try_files(given.only)
            if not given.only or "chance" in given.only:
                trial.try_by_chance(CHANGED_BY_CHANCE)
    told = f"{report.wrong} were changed, or had an answer that no operator is told of"
    report.sums(f"{report.right + report.wrong} files: {told}")
