"""Runs of the gate that are put together."""
import json
import os
import time
import types
import unittest
from unittest import mock

import kit
from lib import desks, findings, gate_runs, stacks

OK = "rt: ok; done in this run: 1 of the 2 proofs (of crates) and 1 of the 2 must-fail edits; the others are kept"
DONE = "rt: ok; done in these runs: 2 of the 2 proofs and 2 of the 2 must-fail edits"


# desk stands on low, and high on desk
STACK = {"low": "low: std", "desk": "desk: low", "high": "high: desk"}


class Times:
    """Stands in for the times of bin/gate-times."""

    def __init__(self):
        self.tasks, self.used, self.edits, self.runs, self.done, self.busy = {}, {}, 0, 0.0, [], None

    def add(self, key, minutes, used):
        self.tasks[key], self.used[key] = minutes, used

    def count_tried(self, _key, tried):
        self.edits += tried

    def table(self):
        return f"{len(self.tasks)} tasks, {self.edits} edits, {self.busy():.0f} minutes busy, {self.runs:.0f} of runs"


class Runs(unittest.TestCase):
    def setUp(self):
        folder = desks.room()
        self.addCleanup(folder.cleanup)
        self.tree, self.kit, self.clock = findings.Tree("c" * 40, "a" * 12, "b" * 12), "a kit", 1000.0
        # (what git has of each commit)
        self.commits = {"c" * 40: {name: stacks.Crate("1", line) for name, line in STACK.items()}}
        for place in (mock.patch.object(gate_runs, "FOLDER", f"{folder.name}/gate"),
                      mock.patch.object(kit, "version", lambda: self.kit),
                      mock.patch.object(stacks, "of_commit", lambda commit: self.commits.get(commit)),
                      mock.patch.object(stacks, "of_tree", lambda tree: self.commits.get(tree.commit)),
                      mock.patch.object(gate_runs.evidence, "write_file")):
            self.written = place.start()
            self.addCleanup(place.stop)

    def changes(self, name, **what):
        """Changes a crate in a commit after the last one."""
        crates, letter = self.commits[self.tree.commit], chr(ord(self.tree.commit[0]) + 1)
        self.tree = self.tree._replace(commit=letter * 40, crates=letter * 12)
        self.commits[self.tree.commit] = {**crates, name: crates[name]._replace(**what or {"folder": letter})}

    def run_of(self, tasks, lines=(OK, "4 passed, 0 failed"), status=0):
        """Returns the file of a run that did these tasks, and ended so, or was ended from outside."""
        run = types.SimpleNamespace(command="bin/gate-times", start=time.monotonic(), tree=self.tree, processors=2)
        self.clock += 100
        with mock.patch.object(gate_runs.os, "getpid", lambda: self.clock), \
                mock.patch.object(gate_runs.time, "time", lambda: self.clock):
            recorder = gate_runs.Recorder(run)
        for task in tasks:
            recorder.adds(task)
        if lines:
            recorder.ends(lines, 1.0, 9.0, status)
        return recorder.path

    def low_and_desk(self):
        """Returns the file of a run over the two lower crates."""
        done = [(("low", "proof"), 3.0, 1.5), (("low", "edits", 0), 2.0, 0.5), (("desk", "proof"), 4.0, 3.0)]
        return self.run_of([gate_runs.Task(it, minutes, int("edits" in it), True, 6.0, used)
                            for it, minutes, used in done])

    def all_crates(self):
        """Returns the file of a run over all crates after one over the lower ones, which took over what these did."""
        done = [(("low", "proof"), 0.0), (("low", "edits", 0), 0.0), (("desk", "proof"), 1.0), (("high", "proof"), 5.0)]
        return self.run_of([gate_runs.Task(it, minutes, int("edits" in it), True, 8.0, minutes / 2)
                            for it, minutes in done])

    def both(self):
        """Returns the files of a run that was ended from outside, and of one that went on."""
        task = gate_runs.Task
        first = [task(("low", "proof"), 3.0, 0, True, 2.0), task(("low", "edits", 0), 2.0, 1, True, 3.0),
                 task(("desk", "proof"), 9.0, 0, False, 8.0)]
        second = [task(("low", "proof"), 0.001, 0, True, 0.0), task(("desk", "proof"), 5.0, 0, True, 4.0),
                  task(("low", "edits", 0), 0.0, 1, True, 4.0), task(("low", "edits", 1), 1.0, 1, True, 5.0)]
        return self.run_of(first, ()), self.run_of(second)

    def test_each_task_counts_once_by_the_run_that_did_it(self):
        times = Times()
        found = gate_runs.join([*reversed(self.both())], times)
        self.assertEqual(times.tasks, {("low", "proof"): 3.0, ("low", "edits", 0): 2.0, ("desk", "proof"): 5.0,
                                       ("low", "edits", 1): 1.0})
        self.assertEqual(times.done, [DONE])
        first, second, *rest = found
        self.assertTrue(first.endswith("was ended from outside; 2 of 4 tasks count by it"), first)
        self.assertTrue(second.endswith("ended with status 0; 2 of 4 tasks count by it"), second)
        table = "4 tasks, 2 edits, 17 minutes busy, 1 of runs"
        self.assertEqual(rest, ["", table, DONE, "4 passed, 0 failed"])
        (name, head, lines), _ = self.written.call_args
        self.assertEqual((name, lines), ("gate", found))
        over = "over commit c+, crates a+, bin b+, by a kit"
        machine = "2 runs of .* on 2 processors, ended 1970-01-01 00:2.* UTC: all as it must be"
        self.assertRegex(head, f"^bin/gate-times --join, of 2 runs\n{over}\n{machine}$")
        self.assertIsNotNone(findings.HEAD.fullmatch(head))

    def test_what_no_run_did_is_told(self):
        first, _ = self.both()
        with open(first, "a", encoding="utf-8") as it:
            it.write('{"took": 1.')
        gate_runs.join([first, self.run_of([])], times := Times())
        self.assertEqual(times.done[0], DONE.replace("2 of the 2", "1 of the 2"))

    def is_refused(self, why, *paths):
        with self.assertRaisesRegex(desks.Broken, why):
            gate_runs.join(paths, Times())
        self.written.assert_not_called()

    def test_runs_by_another_kit_or_of_no_commit_are_refused(self):
        first, second = self.both()
        self.tree = self.tree._replace(bin="d" * 12)
        gate_runs.join([first, second, self.run_of([])], Times())
        self.written.reset_mock()
        with mock.patch.object(self, "kit", "another kit"):
            self.is_refused("is by another kit", first, self.run_of([]))
        self.tree = None
        self.is_refused("is of a tree that no commit has", self.run_of([]))

    def test_a_run_is_joined_with_a_later_one_where_a_higher_crate_changed(self):
        first = self.low_and_desk()
        self.changes("high")
        found = gate_runs.join([first, self.all_crates()], times := Times())
        self.assertEqual(times.tasks, {("low", "proof"): 3.0, ("low", "edits", 0): 2.0, ("desk", "proof"): 4.0,
                                       ("high", "proof"): 5.0})
        self.assertEqual([it.partition("; ")[2] for it in found[:2]], ["3 of 4 tasks count by it",
                                                                      "1 of 4 tasks count by it"])
        # (of the nine minutes of the last run three are of its tasks)
        self.assertEqual((times.used["desk", "proof"], times.busy()), (3.0, 1.5 + 0.5 + 3.0 + 2.5 + (9.0 - 3.0)))

    def test_tasks_of_a_crate_that_changed_and_of_those_above_it_do_not_count(self):
        first = self.low_and_desk()
        self.changes("desk")
        found = gate_runs.join([first, self.all_crates()], times := Times())
        self.assertEqual(times.tasks, {("low", "proof"): 3.0, ("low", "edits", 0): 2.0, ("desk", "proof"): 1.0,
                                       ("high", "proof"): 5.0})
        self.assertTrue(found[0].endswith("2 of 4 tasks count by it; changed since, or one below: desk"), found[0])

    def test_a_run_is_refused_where_a_crate_below_all_of_its_own_changed(self):
        for change in ({}, {"line": "low: std jiff"}):
            first = self.low_and_desk()
            self.changes("low", **change)
            self.is_refused("is of other crates than .*has changed since", first, self.all_crates())

    def test_a_line_of_a_crate_counts_where_the_folders_are_the_same(self):
        first = self.low_and_desk()
        self.changes("low", line="low: std jiff")
        self.tree = self.tree._replace(crates="a" * 12)
        self.is_refused("is of other crates than", first, self.all_crates())

    def forgets(self, path):
        """Takes the crates out of the file of a run, as earlier files have none."""
        with open(path, encoding="utf-8") as it:
            head, *lines = it.read().splitlines()
        with open(path, "w", encoding="utf-8") as it:
            made = {name: value for name, value in json.loads(head).items() if name != "crates"}
            it.write("\n".join([json.dumps(made), *lines, ""]))

    def test_of_a_run_whose_file_lacks_the_crates_git_says_them(self):
        first, commit = self.low_and_desk(), self.tree.commit
        self.forgets(first)
        self.changes("high")
        gate_runs.join([first, self.all_crates()], times := Times())
        self.assertEqual(times.tasks["low", "proof"], 3.0)
        self.changes("low")
        self.written.reset_mock()
        self.is_refused("is of other crates than", first, self.all_crates())
        del self.commits[commit]
        self.is_refused(f"git has neither its commit {commit} nor another one with crates aaaa", first,
                        self.all_crates())

    def test_the_last_run_must_have_passed(self):
        first, second = self.both()
        self.is_refused("no whole gate that passed", first)
        for last, status in (("3 passed, 1 failed", 1), ("4 passed, 0 failed (low and those below)", 0)):
            self.is_refused("no whole gate that passed", second, self.run_of([], [OK, last], status))

    def test_each_run_has_a_file_of_its_own(self):
        self.assertEqual(len({*self.both(), self.run_of([])}), 3)
        self.assertEqual(len(os.listdir(gate_runs.FOLDER)), 3)


if __name__ == "__main__":
    unittest.main()
