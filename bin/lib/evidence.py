"""What a run found, written to evidence/NAME.txt with the tree that it ran over.

A tree is named by git's names of its folders crates/ and bin/. Evidence is written only where a commit has both as they
are. Documents and evidence/ itself may have changed: a run does not depend on them.
"""
import os
import subprocess
import sys
import time

import kit
from lib import desks, findings

FOLDERS = ("crates", "bin")


def output(*words):
    """Returns what a command prints, or else that it is not known."""
    ran = subprocess.run(words, cwd=kit.TOP, capture_output=True, text=True, check=False)
    return ran.stdout.strip() or "unknown"


def commit():
    """Returns the commit of the tree as it is."""
    return output("git", "describe", "--always", "--dirty", "--abbrev=40")


def git(*words):
    """Returns what git prints, or nothing where it fails."""
    ran = subprocess.run(["git", *words], cwd=kit.TOP, capture_output=True, text=True, check=False)
    return None if ran.returncode else ran.stdout.strip()


def why_none():
    """Returns why no evidence can be written of the tree as it is, or nothing where it can."""
    if not os.path.exists(f"{kit.TOP}/.git"):
        return "this tree is no checkout of git"
    changed = git("status", "--porcelain", "--", *FOLDERS)
    return f"no commit has {' and '.join(f'{it}/' for it in FOLDERS)} as they are" if changed != "" else ""


def tree():
    """Returns the tree that is checked out, or nothing where no evidence can be written of it."""
    if why_none():
        return None
    names = git("rev-parse", "HEAD", *(f"HEAD:{it}" for it in FOLDERS))
    if not names:
        return None
    commit_name, *folders = names.split()
    return findings.Tree(commit_name, *(it[:findings.SHORT] for it in folders))


def processors():
    """Returns how many processors this process may run on."""
    return len(os.sched_getaffinity(0))


def time_of(seconds):
    """Returns a time in words."""
    return f"{seconds:.0f} seconds" if seconds < 120 else f"{seconds / 60:.0f} minutes"


class Evidence:
    """A run of a command over the tree that is checked out, which begins now."""

    def __init__(self, command, count):
        self.command, self.processors, self.start, self.tree = command, count, time.monotonic(), tree()

    def head(self, is_well):
        """Returns what the run was, over which tree and on what, when it ended, and whether all was well."""
        ended = output("date", "-u", "+%Y-%m-%d %H:%M UTC")
        machine = f"{time_of(time.monotonic() - self.start)} on {self.processors} processors, ended {ended}"
        return findings.head(self.command, self.tree, kit.version(), f"{machine}: {findings.END[bool(is_well)]}")

    def write(self, name, found, is_well):
        """Writes the run's file, in the place of the one of an earlier run, and the table of all. Where it cannot be
        written, it says so. It is of the proved program alone."""
        desks.refuse_one_not_proved()
        if not self.tree or self.tree != tree():
            print(f"evidence/{name}.txt is not written: {why_none() or 'the tree is another'}", file=sys.stderr)
            return
        write_file(name, self.head(is_well), found)


def write_file(name, head, found):
    """Writes a file of evidence with this head, and the table of all."""
    os.makedirs(findings.folder(), exist_ok=True)
    with open(findings.path_of(name), "w", encoding="utf-8") as it:
        it.write("\n\n".join([head, findings.explained(name), "\n".join([*found, ""])]))
    findings.write_table()
