"""What bin/quick runs side by side, without a proof and within one time: the compiler of the program, and the tests of
crates, each as a program that is compiled first and then run as rt ci runs it: each test for a minute at most."""
import concurrent.futures
import os
import re
import signal
import subprocess
import sys
import time
import typing

import kit
from lib import desks, stacks

# the most memory that one run takes, as measured
MEMORY = 4_000_000_000
PROGRAM = "desk"
WELL, WRONG, NOT_RUN = "well", "FAILED", "not run"


class Ended(typing.NamedTuple):
    """How a run ended, in one of three words and in more, and what was said where it went wrong."""

    end: str
    what: str
    said: str = ""


def names():
    """Returns the names of all crates."""
    with open(f"{kit.TOP}/crates.txt", encoding="utf-8") as it:
        return list(stacks.named(it.read()))


def has_tests(crate):
    """Returns whether a crate's code has tests."""
    for folder, _, files in os.walk(f"{kit.TOP}/crates/{crate}/src"):
        for name in (it for it in files if it.endswith(".rt")):
            with open(f"{folder}/{name}", encoding="utf-8") as it:
                if re.search(r"^ *#\[test\]", it.read(), re.M):
                    return True
    return False


def lanes():
    """Returns how many runs may go side by side: no more than there are processors, or RT_JOBS, or memory for."""
    most = os.environ.get("RT_JOBS", "")
    most = min(int(most), kit.processors()) if most.isdigit() and int(most) else kit.processors()
    return max(1, min(most, kit.free_memory() // MEMORY))


LATE = Ended(NOT_RUN, "not run to the end: the time was up")


class Runs:
    """Runs that begin now, and of which none may last longer than to the end of these minutes."""

    def __init__(self, minutes):
        self.end = time.monotonic() + 60 * minutes
        for it in (signal.SIGTERM, signal.SIGINT):
            signal.signal(it, self.ends)

    def ends(self, number, _frame):
        """Ends all runs."""
        self.end = 0
        sys.exit(128 + number)

    def is_late(self):
        return time.monotonic() > self.end

    def ended(self, words, folder):
        """Runs words in a folder, and returns the exit status, and what was printed. There is no status where the time
        was up: it is asked to end then, with all that it started."""
        how = {"stdin": subprocess.DEVNULL, "stdout": subprocess.PIPE, "stderr": subprocess.STDOUT, "text": True}
        with subprocess.Popen(words, cwd=folder, start_new_session=True, errors="replace", **how) as ran:
            while not self.is_late():
                try:
                    said, _ = ran.communicate(timeout=0.5)
                    return ran.returncode, said
                except subprocess.TimeoutExpired:
                    pass
            os.killpg(ran.pid, signal.SIGTERM)
            return None, ran.communicate()[0]

    def of_program(self):
        """Compiles the program, where none is current."""
        if self.ended([f"{kit.TOP}/bin/lib/program", "--current"], kit.TOP)[0] == 0:
            return Ended(WELL, "is current")
        status, said = self.ended([f"{kit.TOP}/bin/build", "--not-proved"], kit.TOP)
        if status is None:
            return Ended(NOT_RUN, "not compiled: the time was up")
        return Ended(WRONG, "NOT COMPILED", said) if status else Ended(WELL, "compiled, not proved")

    def of_tests(self, crate):
        """Runs the tests of a crate."""
        if self.is_late():
            return Ended(NOT_RUN, "not run: the time was up before they began")
        with desks.room() as room:
            program, data = f"{room}/{crate}_tests", f"{room}/data"
            os.mkdir(data)
            os.chmod(room, 0o711)
            status, said = self.ended([f"{kit.TOP}/bin/build", "--tests", crate, program], kit.TOP)
            if status:
                return Ended(WRONG, "its tests are NOT COMPILED", said)
            return LATE if status is None else self.ran(program, data)

    def ran(self, program, room):
        """Runs a program of tests in a folder."""
        try:
            status, said, tests = kit.ran_tests(program, room, self.ended)
        except kit.Lacking as why:
            return Ended(WRONG, "its tests did NOT RUN", f"{why}\n")
        return LATE if status is None else judged(status, said, tests)

    def of(self, crates):
        """Yields the program and each of these crates as its run ends, with how it ended."""
        with concurrent.futures.ThreadPoolExecutor(lanes()) as pool:
            runs = {pool.submit(self.of_program): PROGRAM}
            runs |= {pool.submit(self.of_tests, it): it for it in crates}
            for it in concurrent.futures.as_completed(runs):
                yield runs[it], it.result()


def judged(status, said, tests):
    """Returns how the tests of a crate ended, by the status of their run and what was said of each. A test that took
    too long was not run, and fails nothing. Where no test failed, a status other than 0 is due to such ones alone."""
    passed, failed, long = ([it for it, (found, _) in tests.items() if found == end]
                            for end in (kit.PASSES, kit.FAILS, kit.TOO_LONG))
    what = f"{len(passed)} tests passed" + (f", {len(failed)} FAILED" if failed else "")
    what += f"; not run, since it took too long: {', '.join(long)}" if long else ""
    texts = "".join(f"{name}\n{tests[name][1]}" for name in failed)
    if failed or status and not long:
        return Ended(WRONG, what if tests else "its tests did NOT RUN", texts or said)
    return Ended(WELL if passed else NOT_RUN, what)
