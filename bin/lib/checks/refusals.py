"""Refuses one request for memory and no other one, each in turn, in the tests of refused memory.

Each request that a call makes is refused in a run of its own of the tests' program, as `rt test` in the crate's folder
or `rt ci` built it last. A library of a few lines of C, which stands before the C library's, counts the requests and
refuses the one. With --try the requests of these numbers are refused by `rt try --test --fail-alloc N`, a minute or two
each; N counts from the start of each test.

Tells for each call how many requests it makes, and what it came to at which of them. Something is otherwise where a
call came to what no test allows. Needs a C compiler, `cc`.

Shows: how each call of these tests ends where one request for memory is refused, and no other one.
Cannot show: calls that no test makes, and a process that the system ends since memory ran out.
"""
import concurrent.futures
import itertools
import os
import re
import shutil
import subprocess
import tempfile

import kit
from lib import desks

NEEDS = ("cc",)
NEEDS_THE_PROGRAM = False
CRATES = ("rtgs_memory_trials",)
BEGINS, CALLED, ANSWERED = "begins", "called", "answered"
# what a call may come to where one request is refused, and no other: 91 (Faulted) would take lack of memory for a fault
# of the store
OUTCOMES = {
    "Ample": "the answer with ample memory",
    "Refused": "90, and nothing has changed",
    "Stopped": "69, or a batch that stopped: all is done, or a part of which the same call does the rest",
    "Lost": "69: all is done",
}
MOST_REQUESTS = 1 << 14


def options(words):
    words.add_argument("--only", action="append", default=[], metavar="CRATE[/TEST]",
                       help="refuse the requests of these tests alone; may be given again")
    words.add_argument("--try", nargs=3, dest="tried", metavar=("FROM", "TO", "CRATE"), help="refuse by rt try")


def last_word(text, test):
    """Returns how far the call of a test came: what the last of its lines says. Nothing where it has no such line."""
    found = re.findall(rf"^\s*{test}: (\w+)$", text, re.M)
    return found[-1] if found else None


class Program:
    """The tests of a crate as one program, run with one request refused."""

    def __init__(self, folder, crate, library):
        self.crate, self.program, self.library = crate, f"{folder}/{crate}_tests", library
        found = kit.tests_programs(crate)
        if not found:
            told = "`rt test` in its folder, or rt ci, proves and builds them"
            raise desks.Broken(f"the tests of {crate} are not built: {told}")
        shutil.copyfile(max(found, key=os.path.getmtime), self.program)
        os.chmod(self.program, 0o755)

    def tests(self):
        """Returns the names of the tests that tell how far a call comes."""
        listed = subprocess.run([self.program, "--list"], check=True, capture_output=True, text=True).stdout
        return [it for it in re.findall(r"tests(?:::\w+)+", listed) if self.run(it, 0)[0]]

    def run(self, test, number):
        """Returns how far the call of a test comes where the request of this number is refused, and how many requests
        there are before the state is made from which it is called, and before the call."""
        how = {"DESK_CALLED_ONCE": "1", "DESK_REFUSED_REQUEST": str(number), "LD_PRELOAD": self.library}
        with tempfile.TemporaryDirectory(prefix="refusals-") as folder:
            how = {"cwd": folder, "env": {**os.environ, **how}}
            ran = subprocess.run([self.program, test], capture_output=True, text=True, errors="replace", **how)
        before = dict(re.findall(r"^requests until (\w+): (\d+)$", ran.stderr, re.M))
        return last_word(ran.stdout, test), [int(before.get(it, 0)) for it in (BEGINS, CALLED)]

    def until(self, end, test, numbers):
        """Returns how far the call comes at each of these numbers, up to one where it has this end."""
        found = (self.run(test, number)[0] for number in numbers)
        return list(itertools.takewhile(lambda word: word != end, found))

    def outcomes(self, test):
        """Returns what the call came to at each of its requests, in turn. After the call its state is made once more:
        as many of the first requests for that are done without here as where it is made before the call."""
        begun, called = (it + 1 for it in self.run(test, 0)[1])
        found = self.until(CALLED, test, range(called, called + MOST_REQUESTS))
        return found[: len(found) - len(self.until(BEGINS, test, range(begun, called)))]


def counted(words):
    """Returns what a call came to at which of its requests, as runs of requests that came to the same."""
    runs, at = [], 1
    for word, same in itertools.groupby(words):
        count = len(list(same))
        runs.append(f"{at}{f' to {at + count - 1}' if count > 1 else ''} {word}")
        at += count
    return ", ".join(runs) or "none"


def summed(words):
    """Returns how many requests a call made, and how often it came to what."""
    counts = [f"{words.count(it)} {it}" for it in dict.fromkeys([*OUTCOMES, *words]) if it in words]
    return f"{len(words)} requests: {', '.join(counts) or 'none'}"


def each_request(names, report):
    """Refuses each request of each call, and finds what came of it."""
    for word, meaning in OUTCOMES.items():
        report.keeps(f"{word:9}{meaning}")
    wanted = [it for it in CRATES if not names or any(name.split("/")[0] == it for name in names)]
    report.counts(wanted)
    calls = requests = 0
    with desks.room() as folder, concurrent.futures.ThreadPoolExecutor(2) as lanes:
        library = desks.library("counting", folder)
        for program in [Program(folder, it, library) for it in wanted]:
            is_whole = not names or program.crate in names
            tests = [it for it in program.tests() if is_whole or f"{program.crate}/{it}" in names]
            report.counts(tests)
            for test, found in zip(tests, lanes.map(program.outcomes, tests)):
                report.tells(f"{program.crate}/{test}: {len(found)} requests: {counted(found)}")
                report.keeps(f"{program.crate}/{test}: {summed(found)}")
                report.counts(all(word in OUTCOMES for word in found))
                calls, requests = calls + 1, requests + len(found)
    report.sums(f"{requests} requests of {calls} calls; {report.wrong} calls came to what no test allows")


def by_rt_try(first, last, crate, report):
    """Refuses the requests of these numbers in each test, by rt try, and tells how far each call came."""
    after = set()
    for number in range(first, last + 1):
        said = kit.tests_with_a_request_refused(crate, number)
        parts = re.split(r"^test (tests::\S+) \.\.\. ", said, flags=re.M)[1:]
        for test, text in zip(parts[::2], parts[1::2]):
            word = last_word(text, test)
            report.judges(not (word in (ANSWERED, "Other") and test not in after), f"request {number}, {test}: {word}")
            after |= {test} if word == CALLED else set()
    report.sums(f"requests {first} to {last}: {report.right} calls came to what tests allow, {report.wrong} to more")


def run(given, report):
    if given.tried:
        first, last, crate = given.tried
        by_rt_try(int(first), int(last), crate, report)
    else:
        each_request(given.only, report)
