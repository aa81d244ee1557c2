"""A program whose calls on the files of a folder are watched: what it changes, makes safe and says, in one order.

A library of C, which stands before the C library's, notes each call, and can make one fail or end the program before
it.
"""
import os
import shutil
import tempfile
import typing

from lib import desks, runs

# kinds of what is noted; and, where it is asked for, how many calls of a kind there were
MADE, WRITE, CUT, SYNC, SAID, FAILED, CALLS = "made", "write", "cut", "sync", "said", "failed", "calls"
# the name under which the folder itself is synced
FOLDER = "."


class Event(typing.NamedTuple):
    """A call that was made: its kind, the name of the file, an offset or a length, and bytes. Of a call that failed:
    the error and the call's kind."""

    kind: str
    name: str
    at: int = 0
    data: bytes = b""


def events_of(notes):
    """Returns the events that these bytes note."""
    events, at = [], 0
    while at < len(notes):
        end = notes.index(b"\n", at)
        kind, name, place, count = notes[at:end].decode().split(" ")
        at = end + 2 + int(count)
        events.append(Event(kind, name, int(place), notes[end + 1:at - 1]))
    return events


class Watch:
    """Watches the program in a folder, by a library that was made in another one."""

    def __init__(self, folder, library):
        self.folder, self.library, self.notes = os.path.realpath(folder), library, f"{os.path.realpath(folder)}.notes"

    def book(self, name="book.desk"):
        """Returns the path of a file in the folder."""
        return f"{self.folder}/{name}"

    def environment(self, **more):
        """Returns the environment by which a program is watched, and from here on."""
        if os.path.exists(self.notes):
            os.remove(self.notes)
        how = {"LD_PRELOAD": self.library, "DESK_WATCHED": self.folder, "DESK_NOTES": self.notes}
        return {**os.environ, **how, **more}

    def events(self):
        """Returns what was noted of the last program."""
        return events_of(desks.content(self.notes)) if os.path.exists(self.notes) else []

    def run(self, *words, **more):
        """Runs the program, and returns how that ended and what was noted."""
        ran = runs.run(*words, env=self.environment(**more))
        return ran, self.events()

    def files(self):
        """Returns the bytes of each file in the folder, by its name."""
        return files_in(self.folder)


def library(folder):
    """Compiles the library that watches, into the folder."""
    return desks.library("watching", folder)


def files_in(folder):
    """Returns the bytes of each file in a folder, by its name."""
    return {it: desks.content(f"{folder}/{it}") for it in sorted(os.listdir(folder))}


def clear(folder):
    """Removes the files in a folder."""
    for it in os.listdir(folder):
        os.remove(f"{folder}/{it}")


def copy(folder, other):
    """Makes another folder hold copies of the files in a folder and no other."""
    clear(other)
    for it in os.listdir(folder):
        shutil.copyfile(f"{folder}/{it}", f"{other}/{it}")


def put(folder, files):
    """Makes a folder hold these files and no other."""
    clear(folder)
    for name, data in files.items():
        with open(f"{folder}/{name}", "wb") as file:
            file.write(data)


def redo(folder, event):
    """Does in a folder what an event did."""
    if event.kind in (MADE, WRITE, CUT):
        file = os.open(f"{folder}/{event.name}", os.O_WRONLY | (os.O_CREAT if event.kind == MADE else 0), 0o644)
        if event.kind == WRITE:
            os.pwrite(file, event.data, event.at)
        if event.kind == CUT:
            os.ftruncate(file, event.at)
        os.close(file)


def room():
    """Returns a folder that is removed at the end of its `with`, in memory where there is such a file system."""
    where = "/dev/shm" if os.access("/dev/shm", os.W_OK) else None
    return tempfile.TemporaryDirectory(prefix="desk-", dir=where)
