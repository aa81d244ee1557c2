"""Runs of the program in which calls on a file fail, what such a run may say, and which book it may leave.

A run that fails says so by refusal 91, or by 95 where the file is the lock. What it said before must be a beginning of
what the run says without a fault. The book that is left must be that of all that was answered, or of this and the
command that failed, whole. `init` makes names, so it must not answer once a sync of their folder failed.
"""
import collections
import errno
import itertools
import json
import os
import subprocess
import tempfile
import threading
import typing

from lib import crash_images, crashes, desks, lives, runs, watched

LOCK = lives.BOOK + desks.LOCK
# how a call fails: the error, and whether later calls of its kind on the file fail too, or half a write is made before
ONCE, ON, NO_ROOM, NO_ROOM_ON, HALF = "EIO", "EIO from there on", "ENOSPC", "ENOSPC from there on", "half, then ENOSPC"
WAYS = {
    ONCE: (errno.EIO, "once"), ON: (errno.EIO, "on"), NO_ROOM: (errno.ENOSPC, "once"), NO_ROOM_ON: (errno.ENOSPC, "on"),
    HALF: (errno.ENOSPC, "part"),
}
# the kinds of calls that change a file or make it safe, and of the others; each with the ways in which it fails
CHANGES = {"write": tuple(WAYS), "cut": (ONCE, ON, NO_ROOM, NO_ROOM_ON), "sync": (ONCE, ON, NO_ROOM, NO_ROOM_ON)}
KINDS = {
    "open": (ONCE, ON, NO_ROOM), "read": (ONCE, ON, NO_ROOM), **CHANGES, "look": (ONCE,), "lock": (ONCE,),
    "rights": (ONCE,), "advise": (ONCE,),
}
# how a run may end
ANSWERED, REFUSED, STOPPED = "answered", "refused with {}", "stopped with 91"
# the commands whose refusal says that nothing has changed: an import that did more has a result file
NOTHING_DONE = ("import", "serve")
# the longest time of a run, in seconds
LONGEST = desks.SECONDS
# how many disks are built by chance of what a power cut may leave after a sync that failed
BY_CHANCE = 2
FAILED = json.dumps({"code": 91, "name": "StoreFault"}, separators=(",", ":")).encode()
LOST = b"HTTP/1.1 503 Service Unavailable\r\n"


class Wrong(Exception):
    """How a run is not as it must be."""


class Fault(typing.NamedTuple):
    """A call that is to fail: its kind, its file, its number among these calls, and how it fails."""

    kind: str
    name: str
    number: int
    way: str

    def chosen(self):
        """Returns the words by which the library that watches knows the call."""
        error, how = WAYS[self.way]
        return f"{self.kind} {self.name} {self.number} {error} {how}"


class Said(typing.NamedTuple):
    """What a run said: how it ended with what it printed, and its replies over HTTP."""

    ran: runs.Ran
    replies: tuple = ()


class Trial:
    """A command over a book, which begins with these files. With requests it is a server that is sent these. `opens` is
    the command that opens what is left."""

    def __init__(self, name, words, files=None, opens="accounts", requests=()):
        self.name, self.words, self.files, self.opens, self.requests = name, words, files or {}, opens, requests

    def prepare(self, room, library):
        """Runs the command without a fault, and finds the books that it makes, how many calls it makes of which kind on
        which file, and what it says when it is given again."""
        self.life = lives.Life(self.name, f"{room}/good", library, self.files, self.opens)
        self.good, events = self.says(self.life.watch, DESK_COUNTS="1")
        if self.good.ran.status:
            raise desks.Broken(f"{self.name}: {self.good.ran}")
        self.calls = {(it.data.decode(), it.name): it.at for it in events if it.kind == watched.CALLS}
        self.life.takes(self.name, self.words[0], [it for it in events if it.kind != watched.CALLS])
        os.mkdir(f"{room}/one")
        os.mkdir(f"{room}/other")
        acted = self.life.judge(f"{room}/one", f"{room}/other")
        if acted != self.last():
            raise desks.Broken(f"{self.name}: {acted} answers, and {self.last()} commands")
        self.again = None if self.requests else self.ran(self.life.watch.folder)
        return self

    def last(self):
        """Returns the number of the last book."""
        return len(self.life.books) - 1

    def again_over(self, number):
        """Returns how the command ends that is given again over the book of this number."""
        if number in (0, self.last()):
            return self.again if number else self.good.ran
        good, again = (it.out.splitlines(keepends=True) for it in (self.good.ran, self.again))
        done = next(it for it in range(len(good)) if acted_in("".join(good[:it]).encode()) == number)
        return runs.Ran(0, "".join(again[:done] + good[done:]))

    def line(self, folder):
        """Returns the words of the command over the book in a folder."""
        return self.words[0], f"{folder}/{lives.BOOK}", *self.words[1:]

    def ran(self, folder, env=None):
        """Runs the command over the book in a folder, and returns how that ended."""
        try:
            return runs.run(*self.line(folder), env=env, timeout=LONGEST)
        except subprocess.TimeoutExpired as why:
            raise Wrong(f"it does not end within {LONGEST} seconds") from why

    def says(self, watch, **more):
        """Runs the command watched, and returns what it said and what was noted."""
        env = watch.environment(**more)
        said = served(self, watch.folder, env) if self.requests else Said(self.ran(watch.folder, env))
        return said, watch.events()


def served(trial, folder, env):
    """Serves a trial's requests, one after another until one has another reply than it must have, and returns what was
    said. The port stands in it as P."""
    port = str(desks.free_port())
    more = ["--port", port, "--count", str(len(trial.requests)), "--operator-key", desks.OPERATOR]
    pipes = {"stdout": subprocess.PIPE, "stderr": subprocess.PIPE, "text": True}
    with subprocess.Popen([desks.DESK, *trial.line(folder), *more], env=env, **pipes) as server:
        late = threading.Timer(LONGEST, server.kill)
        late.start()
        first = server.stdout.readline()
        replies = tuple(replies_of(int(port), trial.requests)) if first else ()
        out, err = server.communicate()
        is_late = not late.is_alive()
        late.cancel()
    if is_late:
        raise Wrong(f"it does not end within {LONGEST} seconds")
    said = (first + out).replace(f"listening {port}\n", "listening P\n")
    return Said(runs.Ran(server.returncode, said, err), replies)


def replies_of(port, requests):
    """Yields the replies to requests, and none after one that is not good."""
    for it in requests:
        try:
            reply = desks.reply_on(desks.send(port, it))
        except OSError:
            reply = b""
        yield reply
        if b" 200 OK\r\n" not in reply[:20]:
            return


# What a run may say


def acted_in(said):
    """Returns how many answers to commands that changed the book are in these bytes."""
    return len(lives.ACTED.findall(said))


def after(trial, said, fault):
    """Returns how a run of a trial ended that met this fault and said this, and the numbers of the books that it may
    leave."""
    last, number = trial.last(), 95 if fault.name == LOCK else 91
    if said == trial.good:
        if trial.words[0] == "init" and fault.kind == "sync" and fault.name == watched.FOLDER:
            raise Wrong("it passes over a sync of the folder that failed")
        return ANSWERED, range(last, last + 1)
    if not said.replies and is_refused(trial, said.ran, number):
        is_as_before = number == 95 or trial.words[0] in NOTHING_DONE
        return REFUSED.format(number), range(1 if is_as_before else min(1, last) + 1)
    if trial.requests:
        return after_replies(trial, said)
    if said.ran == runs.Ran(3, said.ran.out) and is_stopped(trial.good.ran.out, said.ran.out):
        acted = acted_in(said.ran.out.encode())
        return STOPPED, range(acted, min(acted + 1, last) + 1)
    raise Wrong(f"it says {said.ran}")


def is_refused(trial, ran, number):
    """Returns whether a run was refused so. Of a statement whole lines from its beginning may have been printed."""
    is_begun = trial.words[0] == "statement" and trial.good.ran.out.startswith(ran.out) and ran.out.endswith("\n")
    return ran._replace(out="") == runs.refused(number) and (not ran.out or is_begun)


def is_stopped(good, out):
    """Returns whether this is the beginning of a result file and ends with a row at which the batch stopped."""
    *lines, last = out.splitlines(keepends=True) or [""]
    whole = good.splitlines(keepends=True)
    is_row = 0 < len(lines) < len(whole) and last == whole[len(lines)].split(",")[0] + ",stopped,,91\n"
    return is_row and lines == whole[:len(lines)]


def after_replies(trial, said):
    """Returns how a server ended that said this, and the numbers of the books that it may leave."""
    *before, last = said.replies or [b""]
    good = trial.good.replies
    is_so = said.ran == runs.Ran(3, "listening P\n") and tuple(before) == good[:len(before)]
    if not is_so or not is_lost(good[len(before)], last):
        raise Wrong(f"it says {said.ran} after {len(before)} good replies and {last[-300:]!r}")
    acted, is_open = acted_in(b"".join(said.replies)), acted_in(good[len(before)]) > 0
    return STOPPED, range(acted, min(acted + is_open, trial.last()) + 1)


def is_lost(good, reply):
    """Returns whether this is the whole reply of a server whose storage failed, where the good one is this."""
    head, _, body = reply.partition(b"\r\n\r\n")
    is_whole = reply.startswith(LOST) and f"\r\nContent-Length: {len(body)}\r\n".encode() in head + b"\r\n"
    is_batch = is_stopped(good.partition(b"\r\n\r\n")[2].decode(), body.decode())
    return is_whole and (is_batch or body == FAILED)


# What a run may leave


class Found:
    """What was found: how many calls of which kind failed in which way in a trial, how the runs ended, how many books
    were opened, and what was wrong."""

    def __init__(self):
        self.calls, self.ends, self.opened, self.wrong = collections.Counter(), collections.Counter(), 0, []

    def joins(self, other):
        """Takes what was found elsewhere."""
        self.calls.update(other.calls)
        self.ends.update(other.ends)
        self.opened += other.opened
        self.wrong += other.wrong


class Disk:
    """A disk on which calls fail, as a folder of one trial."""

    def __init__(self, trial, folder, library, seed):
        self.trial, self.watch, self.seed, self.found = trial, watched.Watch(folder, library), seed, Found()
        self.told = crashes.Disks(trial.life, folder).told

    def fails(self, fault):
        """Runs the trial with a fault, and looks at what it says and leaves. Returns whether the run met the fault."""
        watched.put(self.watch.folder, self.trial.files)
        said, wrong = None, ""
        try:
            said, events = self.trial.says(self.watch, DESK_FAILS=fault.chosen())
        except Wrong as why:
            wrong, events = str(why), self.watch.events()
        has_met = any(it.kind == watched.FAILED for it in events)
        if has_met:
            self.found.calls[self.trial.name, fault.kind, fault.name, fault.way] += 1
        elif said != self.trial.good:
            wrong = wrong or f"without a fault it says {said}"
        if has_met and not wrong:
            wrong = self.wrong_after(said, events, fault)
        if wrong:
            self.found.wrong.append(f"{self.trial.name}, {fault.kind} {fault.number} of {fault.name}, {fault.way}: "
                                    f"{wrong}")
        return has_met

    def wrong_after(self, said, events, fault):
        """Returns what is wrong with what a run said and left, or nothing."""
        wrong, books, left = [], range(self.trial.last() + 1), self.watch.files()
        try:
            end, books = after(self.trial, said, fault)
            self.found.ends[end] += 1
        except Wrong as why:
            wrong.append(str(why))
        try:
            self.leaves(left, books)
            for image in self.images(events, fault):
                self.opens(image, books, "after a power cut")
        except Wrong as why:
            wrong.append(str(why))
        return "; ".join(wrong)

    def leaves(self, left, books):
        """Looks at what a run left, which must be one of these books: the command is given again, and does the rest."""
        trial = self.trial
        if trial.requests or trial.opens == "migrate":
            self.opens(left, books, "what is left")
            return
        number = self.opens(left, books, "what is left") if trial.words[0] == "init" else None
        watched.put(self.watch.folder, left)
        ran, tables = trial.ran(self.watch.folder), trial.life.books[trial.last()]
        self.found.opened += 1
        wanted = [trial.again_over(it) for it in books]
        if trial.words[0] == "init":
            # (a file that is not empty is no place for a book, though it may hold none)
            wanted = [trial.again if left.get(lives.BOOK) else trial.good.ran]
            tables = trial.life.books[number] if left.get(lives.BOOK) else tables
        if ran not in wanted:
            raise Wrong(f"the command again: {ran}, and not {wanted}; {keep(left)}")
        if lives.tables_of(f"{self.watch.folder}/{lives.BOOK}") != tables:
            raise Wrong(f"the command again makes another book; {keep(left)}")

    def opens(self, image, books, what):
        """Opens a book without a fault, and returns its number, which must be one of these."""
        watched.put(self.watch.folder, image)
        opened, answers = self.trial.life.opened(self.watch.folder), self.trial.life.answers
        self.found.opened += 1
        for it in books:
            if answers[it] == opened:
                return it
        allowed = " or ".join(self.told(answers[it]) for it in books)
        raise Wrong(f"{what}: {self.told(opened)} is found, and not {allowed}; {keep(image)}")

    def images(self, events, fault):
        """Yields what a power cut may leave after a run in which a call failed that changes a file."""
        history = crash_images.History(self.trial.files)
        for it in events:
            history.step(it)
        if fault.kind in CHANGES:
            yield history.image(crash_images.Nothing())
        for it in range(BY_CHANCE if fault.kind == "sync" else 0):
            yield history.image(crash_images.Chance(f"{self.seed}/{fault}/{it}"))


def keep(image):
    """Keeps a disk, and says where."""
    folder = tempfile.mkdtemp(prefix="faulty-disk-")
    watched.put(folder, image)
    return f"kept in {folder}"


def each_call(trial, folder, library, seed, sort):
    """Has each call of a kind on a file fail in turn in a way, in runs of their own, until one meets no fault. Returns
    what was found."""
    disk, (kind, name, way) = Disk(trial, folder, library, seed), sort
    for number in itertools.count(1):
        if not disk.fails(Fault(kind, name, number, way)):
            return disk.found


# All trials


# the trials that the workers of a pool see
TRIALS = []


def prepared(trial, room, library):
    """Returns a trial with what it does without a fault, in a folder."""
    os.mkdir(room)
    return trial.prepare(room, library)


def ways_of(trial, kind):
    """Returns the ways in which calls of a kind fail in a trial. A reading makes the calls of an opening, which each
    command makes: there one call fails at a time."""
    return [it for it in KINDS[kind] if trial.last() or it in (ONCE, NO_ROOM)]


def kinds_of(trial):
    """Returns the kinds of calls that a trial makes at least: one that acts also writes and cuts."""
    return ("open", "read", "sync", "look", "lock", "advise", *(("write", "cut") if trial.last() else ()))


def of_sort(task):
    """Has each call of a sort fail in turn, in a folder of its own, and returns what was found."""
    number, library, seed, sort = task
    with watched.room() as folder:
        os.mkdir(f"{folder}/books")
        return each_call(TRIALS[number], f"{folder}/books", library, seed, sort)


def fail_everywhere(library, seed):
    """Has each call of each trial fail in each way, and returns what was found."""
    found = Found()
    tasks = [(number, library, seed, (kind, name, way)) for number, trial in enumerate(TRIALS)
             for kind, name in sorted(trial.calls) for way in ways_of(trial, kind)]
    with crashes.pool() as workers:
        for it in workers.map(of_sort, tasks):
            found.joins(it)
    return found
