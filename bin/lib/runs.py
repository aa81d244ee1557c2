"""Runs of the program: how each ends, and what it prints on which stream.

A run that is answered prints on standard output alone, and ends with 0. One that is refused prints one line on standard
error alone, and ends with the status that SPECIFICATION.md lists for that refusal.
"""
import functools
import re
import subprocess
import typing

import kit
from lib import desks

REFUSED = re.compile(r"refused (\d\d) (\w+)( [A-Z0-9 ]+)?\n")


class Ran(typing.NamedTuple):
    """How a run ended, and what it printed on standard output and on standard error."""

    status: int
    out: str = ""
    err: str = ""


def run(*words, before=(), **how):
    """Runs the program, by the words before it where there are some, and returns how that ended."""
    as_text = {"encoding": "utf-8", "errors": "backslashreplace"}
    how = {"stdout": subprocess.PIPE, "stderr": subprocess.PIPE, "timeout": desks.SECONDS, **as_text, **how}
    ran = subprocess.run([*before, desks.DESK, *words], check=False, **how)
    # (nothing is known of a stream that was not taken here)
    return Ran(ran.returncode, ran.stdout or "", ran.stderr or "")


@functools.lru_cache(maxsize=None)
def refusals():
    """Returns the name and the exit status of each refusal that a run may meet, by its number."""
    with open(f"{kit.TOP}/docs/SPECIFICATION.md", encoding="utf-8") as it:
        text = it.read()
    of_forms = re.search(r"^\| 30 to 35 \| .* \| (\d) \|$", text, re.M)[1]
    found = re.findall(r"^\| (\d+) \| (\w+) \| .* \| (\d) \|$", text, re.M)
    forms = re.findall(r"^\| \w+ \| .* \| (3\d) (\w+) \|$", text, re.M)
    found += [(number, name, of_forms) for number, name in forms]
    return {int(number): (name, int(status)) for number, name, status in found}


def refused(number, detail=""):
    """Returns how a run ends that is refused so, with this behind the refusal's name."""
    name, status = refusals()[number]
    return Ran(status, "", f"refused {number:02} {name}{detail and ' '}{detail}\n")


def is_apart(ran):
    """Returns whether a run printed an answer on standard output alone and ended with 0, or a refusal on standard error
    alone and ended with its status."""
    line = REFUSED.fullmatch(ran.err)
    if line:
        return not ran.out and refusals().get(int(line[1])) == (line[2], ran.status)
    return ran.status == 0 and ran.out != "" and not ran.err
