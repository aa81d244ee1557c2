"""Runs of the program over one book, one after another and each watched, with the book as it was after each of its
commands.

The books are those that the stock library of SQLite finds in the files as reads gave them: nothing is lost there.
"""
import contextlib
import os
import re
import signal
import sqlite3
import typing

from lib import desks, runs, watched

BOOK = "book.desk"
LOG = BOOK + desks.LOG
# an answer to a command that changed the book, in what the program prints and in what the server replies
ACTED = re.compile(rb'"answer":"(?:settled|queued|held|withdrawn|posted|credit set|opened|resolved|cut off|closed)"|'
                   rb"^[A-Z0-9-]+,(?:settled|queued|held),|"
                   rb"^(?:initialised|migrated|added|credit set|posted \d+|opened|cut off|closed rejected \d+|"
                   rb"resolved mark .*|withdrawn \d+)$", re.M)


def tables_of(book):
    """Returns the rows of each table of a book, or nothing where the file is no database with a table."""
    try:
        with contextlib.closing(sqlite3.connect(f"file:{book}?mode=rw", uri=True)) as link:
            names = sorted(name for name, in link.execute("SELECT name FROM sqlite_master WHERE type = 'table'"))
            return tuple((it, *sorted(map(repr, link.execute(f"SELECT * FROM {it}")))) for it in names) or None
    except sqlite3.DatabaseError:
        return None


class Opened(typing.NamedTuple):
    """What an opening answered, and the rows of each table that it left."""

    ran: runs.Ran
    tables: tuple


class Session(typing.NamedTuple):
    """One run: its kind, the command, and the events from one number on and before another."""

    kind: str
    command: str
    first: int
    last: int


class Life:
    """Runs over one book in a folder, which begins with these files, all safe. `opens` is the command that later opens
    what a power cut left."""

    def __init__(self, name, folder, library, files=None, opens="accounts"):
        os.mkdir(folder)
        self.name, self.opens, self.files = name, opens, files or {}
        self.watch = watched.Watch(folder, library)
        watched.put(folder, self.files)
        self.events, self.sessions = [], []
        # of each moment, after that many events: the book that is seen, and the first of those that may be found
        self.seen, self.least = [0], [0]
        # of each book: its tables, and what an opening answers and leaves
        self.books, self.answers = [], []

    def run(self, kind, *words, **more):
        """Runs a command over the book. It must be answered, or killed where it is to be killed at a call."""
        ran, events = self.watch.run(words[0], self.watch.book(), *words[1:], **more)
        if ran.status != 0 and not (more and ran.status == -signal.SIGKILL):
            raise desks.Broken(f"{self.name}: {' '.join(words)}: {ran}")
        self.takes(kind, words[0], events)
        return ran

    def takes(self, kind, command, events):
        """Takes the events of one more run."""
        self.sessions.append(Session(kind, command, len(self.events), len(self.events) + len(events)))
        self.events += events

    def judge(self, folder, other):
        """Finds the book at each moment, and which may be found after a power cut there, in a folder where the events
        are done again, and another one. The files that the events give must be those that are there."""
        watched.put(folder, self.files)
        self.finds(self.tables_in(folder, other), folder, other)
        acted = 0
        for event in self.events:
            watched.redo(folder, event)
            self.seen.append(self.book_after(event, folder, other))
            # all that is seen before something is said, and before something more is written, is answered
            answered = self.seen[-2] if event.kind in (watched.SAID, watched.WRITE, watched.CUT) else self.least[-1]
            self.least.append(max(self.least[-1], answered))
            if event.kind == watched.SAID:
                acted += len(ACTED.findall(event.data))
                self.wants(acted <= self.seen[-1], f"{acted} answers, and {self.seen[-1]} commands")
            self.wants(self.seen[-1] - self.least[-1] <= 1, "more than one command is open")
        self.wants(watched.files_in(folder) == self.watch.files(), "the files are not those that the events give")
        return acted

    @staticmethod
    def tables_in(folder, other):
        """Returns the rows of each table of the book in a folder, by copies in the other one, since the stock library
        moves the log into the file."""
        watched.copy(folder, other)
        return tables_of(f"{other}/{BOOK}")

    def book_after(self, event, folder, other):
        """Returns the number of the book that is seen after an event."""
        if event.kind not in (watched.WRITE, watched.CUT):
            return self.seen[-1]
        found = self.tables_in(folder, other)
        if found != self.books[-1]:
            self.wants(found is not None and found not in self.books, "a book is lost, or comes back")
            self.finds(found, folder, other)
        return len(self.books) - 1

    def finds(self, tables, folder, other):
        """Takes one more book, and what an opening of its files answers and leaves."""
        self.books.append(tables)
        watched.copy(folder, other)
        self.answers.append(self.opened(other))
        is_same = self.answers[-1].tables == tables or self.opens == "migrate"
        self.wants(is_same, "the program finds another book than the stock library")

    def opened(self, folder):
        """Opens the book in a folder, and returns what is answered, and its tables then."""
        ran = runs.run(self.opens, f"{folder}/{BOOK}")
        return Opened(ran, tables_of(f"{folder}/{BOOK}"))

    def wants(self, is_so, what):
        """Ends the check where something is not as it must be in a run without a power cut."""
        if not is_so:
            raise desks.Broken(f"{self.name}, after {len(self.seen)} events: {what}")

    def session_at(self, moment):
        """Returns the run of which a moment is: the one whose event is the last, or the first one."""
        return next((it for it in self.sessions if it.first < moment <= it.last), self.sessions[0])

    def allowed(self, moment):
        """Returns the numbers of the books that may be found after a power cut at a moment."""
        return range(self.least[moment], self.seen[moment] + 1)
