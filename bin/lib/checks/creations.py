"""Ends the program at each write, cut and sync of the file of a book that it makes, and looks what is left.

`init` is killed before its first such call, before its second, and so on until it ends by itself; and then once half of
the bytes of the write are written. A report on what is left must be refused with 93, or answered, where the book is
whole. Then `init` is given again: it makes the book where the file is missing or empty, and else says that there is a
file. A library of a few lines of C, which stands before the C library's, ends the program. Needs a C compiler, `cc`.

Shows: that `init`, wherever it ends among its calls to a file, leaves no book or the whole one.
Cannot show: what a power cut leaves: what a killed process has written stays in the memory of the system.
"""
import os
import signal
import subprocess

from lib import desks

NEEDS = ("cc",)
MADE = (0, "initialised\n")
EXISTS = (3, "refused 96 FileExists\n")
NO_BOOK = (3, "refused 93 NotADeskFile\n")
# more calls than an `init` makes
MOST = 1000


def run(given, report):
    with desks.room() as folder:
        library = desks.library("ending", folder)
        ended = [try_each(f"{folder}/{name}.desk", {**os.environ, "LD_PRELOAD": library, **within}, name, report)
                 for name, within in {"before": {}, "within": {"DESK_ENDS_WITHIN": "1"}}.items()]
    report.sums(f"`init` ended {sum(ended)} times: {report.right} things as they must be, {report.wrong} not")


def try_each(book, environment, name, report):
    """Ends `init` at each of its calls, and counts what is left. Returns how often it was ended."""
    counts = {"no book": 0, "the whole book": 0}
    for at in range(1, MOST):
        desks.remove(book)
        ended = answer(["init", book], {**environment, "DESK_ENDS_AT": str(at)})
        if ended == MADE:
            report.sees("a call at which it was ended", at > 1, True)
            told = ", ".join(f"{what} {count} times" for what, count in counts.items())
            report.finds(f"`init` ended {name} each of {at - 1} calls: {told}")
            return at - 1
        report.sees(f"the end {name} call {at}", ended[0], -signal.SIGKILL)
        counts[left(book, f"{name} call {at}", report)] += 1
    raise desks.Broken("`init` never ends by itself")


def left(book, where, report):
    """Returns what is left of a book, and looks what `init` then says."""
    found = answer(["report", book, desks.DATE])
    is_empty = not os.path.exists(book) or not os.path.getsize(book)
    report.sees(f"a report after an end {where}", found == NO_BOOK or found[0] == 0 and not is_empty, True)
    report.sees(f"`init` after an end {where}", answer(["init", book]), MADE if is_empty else EXISTS)
    if is_empty:
        report.sees(f"a report on a book that is made after an end {where}", answer(["report", book, desks.DATE])[0], 0)
    return "no book" if found == NO_BOOK else "the whole book"


def answer(words, environment=None):
    """Returns how a run of the program ends, and what it prints."""
    ran = subprocess.run([desks.DESK, *words], env=environment, capture_output=True, text=True, check=False)
    return ran.returncode, ran.stdout + ran.stderr
