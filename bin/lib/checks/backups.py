"""Copies a book by deploy/desk-backup, also while its server runs, and puts copies back.

Copies are made of a book at rest and of one under load, where each must open and have every order that was answered
before. Runs of the copying are killed at random moments, also while the server is held still, and the disk of the
copies gets full (a small tmpfs, where the check has the rights of root for that; it says where it has not). A book is
damaged. After each of these the server must go on, the earlier copies must be there and open, and no other file may
have the name of a copy. A copy is put back in the place of the book.

Shows: that desk-backup makes whole copies, that one which does not end well leaves the earlier ones, and that a copy is
put back by one command.
Cannot show: what a disk keeps through a power cut, and how long the copy of a great book takes.
"""
import contextlib
import os
import random
import re
import shutil
import signal
import stat
import subprocess
import threading
import time

import kit
from lib import desks

NEEDS = ("flock", "setsid")
SCRIPT = f"{kit.TOP}/deploy/desk-backup"
COPIES, KILLED = 8, 8
MANY = 1000000
# how long the check lets the server be held still, in seconds, so that it is let go soon where the script is killed
HELD = 1
# how many kB the small disk has
FULL = 8192


def backup(*words):
    """Returns the status, the output and the errors of a run of the script."""
    how = {"capture_output": True, "text": True, "timeout": desks.SECONDS, "check": False}
    ran = subprocess.run([SCRIPT, *words], env=env(), **how)
    return ran.returncode, ran.stdout, ran.stderr


def env():
    return {**os.environ, "DESK": desks.DESK, "DESK_HELD_SECONDS": str(HELD)}


def copies(folder):
    """Returns the paths of the copies in a folder, oldest first."""
    return sorted(f"{folder}/{it}" for it in os.listdir(folder) if it.endswith(".desk"))


def report_of(book):
    return desks.desk("report", book, desks.DATE)


def opens(folder, opened):
    """Returns how many of the copies open, looked at in a folder of their own, and how many there are."""
    shutil.rmtree(opened, ignore_errors=True)
    shutil.copytree(folder, opened)
    found = copies(opened)
    with contextlib.suppress(desks.Broken):
        return len([report_of(it) for it in found]), len(found)
    return 0, len(found)


class Orders:
    """A bank that sends orders to a server one after another, until the end of its `with`."""

    def __init__(self, server):
        self.server, self.had, self.is_over = server, 0, False
        self.sends = threading.Thread(target=self.send)

    def send(self):
        while not self.is_over:
            # (who is held up for long may find the connection gone, and sends the same order again)
            with contextlib.suppress(OSError):
                self.server.asked(desks.order(desks.KEYS["ALFA"], "BETA", self.had + 1))
                self.had += 1

    def __enter__(self):
        self.sends.start()
        return self

    def __exit__(self, *_):
        self.is_over = True
        self.sends.join()


def at_rest(book, to, report):
    """A copy of a book that nothing uses is that book, and its user alone may read it."""
    status, said, errors = backup(book, to)
    (copy,) = copies(to)
    report.sees("a copy at rest", (status, said.split(",")[0], errors), (0, copy, ""))
    report.sees("its report", report_of(copy), report_of(book))
    modes = [f"{stat.S_IMODE(os.stat(it).st_mode):o}" for it in (to, copy)]
    report.sees("its modes", modes, ["700", "600"])
    os.remove(f"{copy}{desks.LOCK}")
    if os.path.exists(f"{copy}{desks.LOG}"):
        os.remove(f"{copy}{desks.LOG}")


def under_load(book, to, server, report):
    """Each copy of a book under load has each order that was answered before."""
    held = []
    with Orders(server) as orders:
        for _ in range(COPIES):
            before = orders.had
            status, said, errors = backup("--keep", "3", book, to)
            report.sees("a copy under load", (status, errors), (0, ""))
            held.append(int(re.search(r"still for (\d+) ms", said)[1]))
            with desks.room() as folder:
                copy = shutil.copy(copies(to)[-1], folder)
                settled = len(re.findall(r"^sent ", desks.desk("statement", copy, "ALFA", desks.DATE), re.M))
            report.sees("orders that a copy lacks", max(0, before - settled), 0)
    report.sees("copies that are kept", len(copies(to)), 3)
    report.finds(f"held still for {sorted(held)[len(held) // 2]} ms ({min(held)} to {max(held)})")


def killed(book, to, server, folder, report):
    """A script that is killed, or ended, leaves the earlier copies, and the server goes on."""
    for number in range(KILLED):
        before = copies(to)[1:]
        with Orders(server) as orders:
            how = signal.SIGKILL if number % 2 else signal.SIGTERM
            process = subprocess.Popen([SCRIPT, "--keep", "4", book, to], env=env(), stdout=subprocess.DEVNULL,
                                       stderr=subprocess.DEVNULL)
            time.sleep(random.uniform(0, 0.3))
            process.send_signal(how)
            process.wait()
            time.sleep(HELD + 0.5)
            had = orders.had
            time.sleep(0.5)
        report.sees(f"orders after {how.name}", orders.had > had, True)
        report.sees(f"copies that {how.name} took away", sorted(set(before) - set(copies(to))), [])
        made, there = opens(to, f"{folder}/opened")
        report.sees(f"copies that open after {how.name}", made, there)
    report.sees("a copy afterwards", backup(book, to)[0], 0)
    report.sees("parts that are left", [it for it in os.listdir(to) if it.startswith(".part")], [])


def full(book, folder, report):
    """A full disk leaves the earlier copies."""
    small = f"{folder}/small"
    os.mkdir(small)
    mounted = ["mount", "-t", "tmpfs", "-o", f"size={FULL}k", "none", small]
    if subprocess.run(mounted, capture_output=True, check=False).returncode:
        report.finds("a full disk was not tried, which needs the rights to mount one")
        return
    try:
        report.sees("a copy where there is room", backup(book, small)[0], 0)
        before = copies(small)
        with contextlib.suppress(OSError), open(f"{small}/filler", "wb", buffering=0) as it:
            while it.write(b"x" * 1024):
                pass
        status, said, errors = backup(book, small)
        report.sees("a copy on a full disk", (status, said, "the last good copy is" in errors), (1, "", True))
        report.sees("copies on a full disk", copies(small), before)
        report.sees("copies there that open", opens(small, f"{folder}/opened"), (1, 1))
    finally:
        subprocess.run(["umount", small], check=True)


def damaged(book, to, folder, report):
    """Of a damaged book there is no copy."""
    bad = f"{folder}/bad/{os.path.basename(book)}"
    os.mkdir(f"{folder}/bad")
    before = copies(to)
    shutil.copy(before[-1], bad)
    report_of(bad)
    with open(bad, "r+b") as it:
        it.seek(1024)
        it.write(b"\xff" * 2048)
    status, said, errors = backup(bad, to)
    report.sees("a copy of a damaged book", (status, said, "refused 9" in errors), (1, "", True))
    report.sees("copies after it", copies(to), before)


def last(book, to, report):
    """The age of the last copy is told, and judged."""
    copy = copies(to)[-1]
    os.utime(copy, (time.time() - 100,) * 2)
    status, said, _ = backup("--last", book, to)
    report.sees("the last copy", (status, re.sub(r"10\d seconds", "N seconds", said)),
                (0, f"desk-backup: the last good copy is {copy}, N seconds old\n"))
    statuses = [backup("--last", "--within", it, book, to)[0] for it in ("50", "1000")]
    report.sees("one that is too old, and one that is not", statuses, [1, 0])
    report.sees("where there is none", backup("--last", book, os.path.dirname(to))[0], 1)


def restored(book, to, server, report):
    """A copy takes the place of the book by one command, once no server runs."""
    copy = copies(to)[0]
    status, _, errors = backup("--restore", copy, book)
    report.sees("while the server runs", (status, "stop the server" in errors), (1, True))
    server.kill()
    now, there = report_of(book), os.path.getsize(book)
    with open(f"{book}{desks.LOG}", "ab"):
        pass
    status, said, errors = backup("--restore", copy, book)
    report.sees("a copy that is put back", (status, errors), (0, ""))
    with desks.room() as folder:
        report.sees("its report", report_of(book), report_of(shutil.copy(copy, folder)))
    away = said.split()[-1]
    report.sees("the book that was there", (report_of(away), os.path.getsize(away)), (now, there))
    report.sees("the two differ", now != report_of(book), True)
    report.sees("a copy that is not there", backup("--restore", f"{copy}.none", book)[0], 1)


def run(_given, report):
    with desks.room() as folder:
        book, to = f"{folder}/bank.desk", f"{folder}/copies"
        desks.new_book(book, desks.KEYS, 10**9)
        at_rest(book, to, report)
        with desks.Server(book, MANY) as server:
            under_load(book, to, server, report)
            killed(book, to, server, folder, report)
            full(book, folder, report)
            damaged(book, to, folder, report)
            last(book, to, report)
            restored(book, to, server, report)
    report.sums(f"{COPIES} copies under load, {KILLED} that were ended, a full disk, a damaged book and a copy put "
                f"back: {report.right} things as they must be, {report.wrong} not")
