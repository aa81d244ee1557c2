"""Copies the book of a server under load while it is held still, and looks whether the copy has what was answered.

Each round is one of `bin/checks kills`, with its four clients: at a random moment of three seconds the server is held
still by SIGSTOP, the book's file and its log are copied, and the server is killed. The copy must open, and have every
order of each client whose whole reply came, and at most one more. The book itself must open too. The check ends at the
first round where that is not so. It tells how long the server was held still.

Shows: that a copy of the two files of a server that is held still is a book with all that was answered before.
Cannot show: what a copy has that is made while the server runs, and what a disk keeps through a power cut.
"""
import shutil
import signal
import statistics
import time

from lib import desks
from lib.checks import kills

COPY = ".copy"


def options(words):
    words.add_argument("--rounds", type=int, default=400, help="how many copies: 400 if not given")


def run(given, report):
    pauses = []

    def copy(server, book):
        start = time.monotonic()
        copy_held_still(server, book)
        pauses.append(1000 * (time.monotonic() - start))

    counts = kills.kill_again_and_again(given.rounds, report, copy, COPY)
    report.finds(f"held still for {statistics.median(pauses):.0f} ms ({min(pauses):.0f} to {max(pauses):.0f})")
    kills.sums("copies and kills", counts, report)


def copy_held_still(server, book):
    """Copies the book's two files while the server is held still."""
    server.send_signal(signal.SIGSTOP)
    while state_of(server) not in "TZ":
        time.sleep(0.001)
    for end in ("", desks.LOG):
        shutil.copyfile(f"{book}{end}", f"{book}{COPY}{end}")


def state_of(process):
    """Returns the letter for a process's state: T where it is held still, Z where it has ended."""
    with open(f"/proc/{process.pid}/stat", encoding="utf-8") as stat:
        return stat.read().rsplit(")", 1)[1].split()[0]
