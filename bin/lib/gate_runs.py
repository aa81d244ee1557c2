"""Runs of the gate, each kept in a file task by task as it goes, and several of them put together as one.

A release of rt that keeps what passed lets a second run go on where a first one was ended. Each task then counts once,
by the run that did it: of the runs in which it ended well the one in which it took longest, since a run that only takes
it over is done in moments. Of an earlier run a task counts only if its crate, and each one below that, was then as it
is in the last run: the same folder, and the same line of crates.txt.
"""
import json
import os
import re
import time
import typing

import kit
from lib import desks, evidence, findings, stacks

FOLDER = f"{kit.TOP}/out/gate"
# the last line of a whole gate
PASSED = r"\d+ passed, 0 failed"
# what takes less, in seconds of a lane, was taken over
LEAST = 1
OF_PROOFS, OF_EDITS = re.compile(r"of the (\d+) proofs"), re.compile(r"of the (\d+) must-fail edits")


class Task(typing.NamedTuple):
    """A task that ended: its crate and kind, its lane-minutes, the edits that it tried, whether it ended well, how many
    minutes processors were busy by then, and how many of them by the task, or None in files that do not say it."""

    key: tuple
    minutes: float
    edits: int
    is_well: bool
    busy: float
    used: typing.Optional[float] = None


class Recorder:
    """Writes the file of a run as it goes: a line of what runs over which tree, one of each task that ends, and one of
    the end."""

    def __init__(self, run):
        os.makedirs(FOLDER, exist_ok=True)
        began = time.strftime("%Y-%m-%dT%H-%M-%S", time.gmtime())
        self.start, self.path = run.start, f"{FOLDER}/{began}-{os.getpid()}.jsonl"
        tree = {"tree": run.tree, "crates": run.tree and stacks.of_commit(run.tree.commit), "kit": kit.version()}
        self.writes({"command": run.command, "began": time.time(), **tree, "processors": run.processors})

    def writes(self, what):
        with open(self.path, "a", encoding="utf-8") as it:
            it.write(json.dumps(what) + "\n")

    def adds(self, task):
        self.writes({"took": time.monotonic() - self.start, "task": task})

    def ends(self, lines, runs, busy, status):
        """Writes rt's last lines, the minutes of runs of programs, those that processors were busy, and the exit
        status."""
        took = time.monotonic() - self.start
        self.writes({"took": took, "lines": lines, "runs": runs, "busy": busy, "status": status})


class Run:
    """A run, as its file says. One that was ended from outside has no end."""

    def __init__(self, path):
        with open(path, encoding="utf-8") as it:
            # (a run that is ended from outside may leave a part of a line)
            head, *lines = (json.loads(line) for line in it if line.endswith("\n"))
        self.path, self.command, self.began, self.kit = path, head["command"], head["began"], head["kit"]
        self.tree = findings.Tree(*head["tree"]) if head["tree"] else None
        self.crates = {name: stacks.Crate(*it) for name, it in (head.get("crates") or {}).items()}
        self.processors = head["processors"]
        self.tasks = [Task(tuple(it["task"][0]), *it["task"][1:]) for it in lines if "task" in it]
        end = next((it for it in lines if "status" in it), {"lines": [], "runs": 0.0, "status": None})
        self.lines, self.runs, self.status = end["lines"], end["runs"], end["status"]
        self.took = lines[-1]["took"] if lines else 0.0
        # (a file without an end says by its last task how many minutes processors were busy)
        self.busy = end.get("busy", max((it.busy for it in self.tasks), default=0.0))
        self.changed = []

    def leaves_out(self, last):
        """Leaves out the tasks of crates that are not as they are in the last run, which must not be all."""
        if self.kit != last.kit:
            raise desks.Broken(f"{self.path} is by another kit than {last.path}")
        if self.tree.crates == last.tree.crates and not (self.crates and last.crates):
            return
        names = {it.key[0] for it in self.tasks}
        alike = {it for it in names if stacks.are_alike(it, self.known_crates(), last.known_crates())}
        self.changed = sorted(names - alike)
        self.tasks = [it for it in self.tasks if it.key[0] in alike]
        if not self.tasks:
            raise desks.Broken(f"{self.path} is of other crates than {last.path}: each that it is of, or one below it, "
                               "has changed since")

    def known_crates(self):
        """Returns the crates of the run's tree, as its file says them, or else git."""
        self.crates = self.crates or stacks.of_tree(self.tree) or {}
        if not self.crates:
            raise desks.Broken(f"{self.path} does not say what each crate was, and git has neither its commit "
                               f"{self.tree.commit} nor another one with crates {self.tree.crates}")
        return self.crates

    def told(self, tasks):
        """Returns in words what the run was, how many of these tasks it did, and which crates are left out of it."""
        own = len([it for it in self.tasks if it in tasks])
        end = "was ended from outside" if self.status is None else f"ended with status {self.status}"
        left = f"; changed since, or one below: {' '.join(self.changed)}" if self.changed else ""
        return f"{self.command}: {evidence.time_of(self.took)}, {end}; {own} of {len(tasks)} tasks count by it{left}"


def runs_of(paths):
    """Returns the runs of these files, the earliest first, without the tasks of crates that changed since. The last
    must have passed."""
    runs = sorted(map(Run, paths), key=lambda it: it.began)
    unnamed = [it.path for it in runs if not it.tree]
    if unnamed:
        raise desks.Broken(f"{unnamed[0]} is of a tree that no commit has")
    if runs[-1].status != 0 or not re.fullmatch(PASSED, "".join(runs[-1].lines[-1:])):
        raise desks.Broken(f"{runs[-1].path}, the last run, is no whole gate that passed")
    for it in runs[:-1]:
        it.leaves_out(runs[-1])
    return runs


def tasks_of(runs):
    """Returns each task once, by the run that did it."""
    found = {}
    for it in (it for run in runs for it in run.tasks):
        best = found.get(it.key)
        if not best or (it.is_well, it.minutes) > (best.is_well, best.minutes):
            found[it.key] = it
    return list(found.values())


def busy_in(tasks, runs):
    """Returns how many minutes processors were busy for these tasks, and for what the last run did beside tasks: it
    alone runs all tests and programs. Where a task does not say it, all that the runs took."""
    if any(it.used is None for it in tasks):
        return sum(it.busy for it in runs)
    beside = runs[-1].busy - sum(it.used or 0.0 for it in runs[-1].tasks)
    return sum(it.used for it in tasks) + beside


def done_in(tasks, line):
    """Returns rt's line on how much was done, for runs together, as rt says it in its last one."""
    done = [it for it in tasks if it.is_well and 60 * it.minutes >= LEAST]
    tried = sum(it.edits for it in done)
    proofs = len([it for it in done if it.key[1] in ("proof", "tests")])
    wanted = [int(found[1]) if found else 0 for found in (OF_PROOFS.search(line), OF_EDITS.search(line))]
    if not any(wanted):
        return line
    counts = [min(found, most) for found, most in zip((proofs, tried), wanted)]
    return (f"{line.partition('; done in this run')[0]}; done in these runs: {counts[0]} of the {wanted[0]} proofs and "
            f"{counts[1]} of the {wanted[1]} must-fail edits")


def join(paths, times):
    """Puts runs together, and writes them as evidence of the gate. The times get each task and make the table."""
    runs = runs_of(paths)
    tasks = tasks_of(runs)
    for it in tasks:
        times.add(it.key, it.minutes, it.used)
        times.count_tried(it.key, it.edits)
    times.runs, times.busy = runs[-1].runs, lambda: busy_in(tasks, runs)
    *_, line, last = ["", *runs[-1].lines]
    times.done = [done_in(tasks, line)]
    found = [*(it.told(tasks) for it in runs), "", times.table(), *times.done, last]
    took = [evidence.time_of(it.took) for it in runs]
    ended = time.strftime("%Y-%m-%d %H:%M UTC", time.gmtime(runs[-1].began + runs[-1].took))
    machine = f"{len(runs)} runs of {', '.join(took)} on {runs[-1].processors} processors, ended {ended}"
    command = f"bin/gate-times --join, of {len(runs)} runs"
    head = findings.head(command, runs[-1].tree, runs[-1].kit, f"{machine}: {findings.END[True]}")
    evidence.write_file("gate", head, found)
    return found
