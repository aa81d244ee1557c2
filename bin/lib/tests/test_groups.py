"""The groups of checks that bin/checks runs, with a stand-in for each check."""
import contextlib
import importlib.machinery
import importlib.util
import inspect
import io
import unittest
from unittest import mock

import kit
from lib import desks
from lib.report import Report

LOADER = importlib.machinery.SourceFileLoader("checks_script", f"{kit.TOP}/bin/checks")
checks = importlib.util.module_from_spec(importlib.util.spec_from_loader(LOADER.name, LOADER))
LOADER.exec_module(checks)
# what a run of all of them must have, beside what the gate has
ALL = ("handbooks", "migrations", "creations", "hostile-files", "refusals", "kills", "copies", "install", "openapi",
       "clients", "proxy")


class Sums(unittest.TestCase):
    """The result of a check, in the table of evidence, is its last line."""

    def found_by(self, run):
        """Returns how a check ends that runs so, and what it finds."""
        check = mock.Mock(run=run, __doc__="A check.")
        with mock.patch.object(checks, "check_of", return_value=check), \
                mock.patch.object(checks, "missing", return_value=[]), \
                mock.patch.object(checks, "Report", self.report), \
                mock.patch.object(checks, "is_written", return_value=False):
            is_well = checks.run_check(["kills"], mock.Mock())
        return is_well, self.shown

    def report(self):
        self.shown = []
        return Report(lambda line, **_: self.shown.append(line))

    def test_a_check_ends_with_its_sum(self):
        self.assertEqual(self.found_by(lambda _, report: report.sums("3 kills"))[0], True)

        def goes_on(_given, report):
            report.sums("3 kills")
            report.finds("seed 4")

        for run in (goes_on, lambda _, report: report.finds("3 kills"), lambda *_: None):
            is_well, shown = self.found_by(run)
            told = "could not go on: its last line is not the sum of what it found"
            self.assertEqual((is_well, shown[-1]), (False, told))

    def test_what_ends_a_check_is_its_sum(self):
        def breaks(_given, report):
            report.finds("seed 4")
            raise desks.Broken("no port")

        self.assertEqual((self.found_by(breaks)[0], self.shown[-1]), (False, "could not go on: no port"))

    def test_each_check_has_a_sum(self):
        without = [it for it in checks.NAMES if "report.sums(" not in inspect.getsource(checks.check_of(it))
                   and "kills.sums(" not in inspect.getsource(checks.check_of(it))]
        self.assertEqual(without, [])


class Groups(unittest.TestCase):
    def run_main(self, *words, without=(), wrong=()):
        """Runs bin/checks where these tools are missing and these checks go wrong. Returns its exit status, what it
        prints, and the words of each check that ran."""
        ran, out = [], io.StringIO()

        def run_check(its, given):
            ran.append(its)
            return given.name not in wrong

        def installed(tool):
            return tool not in without

        with mock.patch.object(checks, "run_check", run_check), mock.patch.object(desks, "installed", installed), \
                mock.patch.object(checks, "run_apart", run_check), mock.patch.object(desks, "build"), \
                contextlib.redirect_stdout(out):
            status = checks.main(list(words))
        return status, out.getvalue().splitlines(), ran

    def test_the_gate_runs_what_promises_rest_on(self):
        status, lines, ran = self.run_main("gate", "--no-evidence")
        self.assertEqual((status, ran), (0, [[it, "--no-evidence"] for it in ("served", "kept-books", "edges")]))
        self.assertEqual([it.split()[0] for it in lines], ["served", "kept-books", "edges"])
        self.assertTrue(all(it.endswith("  all as it must be") for it in lines), lines)
        self.assertLessEqual(set(checks.PROMISED), set(checks.GATE))

    def test_all_runs_each_check_once_and_what_is_wrong_is_told(self):
        status, lines, ran = self.run_main("all", "--no-evidence", wrong=["kills"])
        names = [it[0] for it in ran]
        self.assertEqual((status, sorted(names)), (1, sorted(set(checks.NAMES) - {"plants"})))
        self.assertLessEqual({*ALL, *checks.GATE}, set(names))
        self.assertEqual(len(lines), len(names))
        (kills,) = [it for it in lines if it.startswith("kills ")]
        self.assertRegex(kills, r"^kills +0 seconds  NOT ALL AS IT MUST BE$")

    def test_side_by_side_each_runs_once_and_the_longest_begin_first(self):
        status, lines, ran = self.run_main("all", "--at-once", "3", "--no-evidence", wrong=["limits"])
        self.assertEqual((status, sorted(it[0] for it in ran)), (1, sorted(set(checks.NAMES) - {"plants"})))
        self.assertEqual({it[0] for it in ran[:2]}, set(checks.LONGEST))
        self.assertEqual([it.split()[0] for it in lines if it.endswith("  NOT ALL AS IT MUST BE")], ["limits"])

    def test_a_check_apart_prints_what_it_says_and_ends_as_it_ends(self):
        out = io.StringIO()
        with contextlib.redirect_stdout(out):
            ended = [checks.run_apart(it, None) for it in (["--list"], ["no-check"])]
        self.assertEqual(ended, [True, False])
        self.assertIn("kills          Kills the server under load", out.getvalue())

    def test_what_lacks_a_tool_is_left_out_and_named(self):
        status, lines, ran = self.run_main("all", "--no-evidence", without=["node", "nginx", "cc"])
        self.assertEqual(status, 0)
        left = {"clients", "proxy", "console", "limits", "creations", "refusals", "power-cuts", "faulty-disks",
                "plants"}
        self.assertEqual({it[0] for it in ran}, set(checks.NAMES) - left)
        self.assertEqual([it for it in lines if "left out" in it], [
            "served, how often the resolver is asked: left out, since there is no cc",
            "edges, lack of memory: left out, since there is no cc", "creations: left out, since there is no cc",
            "refusals: left out, since there is no cc", "power-cuts: left out, since there is no cc",
            "faulty-disks: left out, since there is no cc",
            "clients: left out, since there is no node", "proxy: left out, since there is no nginx",
            "console: left out, since there is no nginx", "limits: left out, since there is no nginx"])

    def test_no_gate_is_passed_without_what_promises_rest_on(self):
        for name in checks.PROMISED:
            with mock.patch.object(checks.check_of(name), "NEEDS", ("ed", "cc"), create=True):
                for words in (["gate", "--tools"], ["gate", "--no-evidence"], ["all", "--no-evidence"]):
                    status, lines, ran = self.run_main(*words, without=["ed"])
                    self.assertIn(f"{name}: left out, since there is no ed", lines)
                    self.assertEqual((status, name in [it[0] for it in ran]), (1, False))
                self.assertEqual(self.run_main("gate", "--tools"), (0, [], []))

    def test_the_tools_of_a_group_are_told_and_nothing_runs(self):
        lines = [f"{it}: left out, since there is no cc"
                 for it in ("served, how often the resolver is asked", "edges, lack of memory")]
        self.assertEqual(self.run_main("gate", "--tools", without=["cc"]), (0, lines, []))

    def test_ci_says_first_what_it_leaves_out_and_then_runs_the_group(self):
        with open(f"{kit.TOP}/.ci/run", encoding="utf-8") as it:
            first, gate, last = it.read().partition("rt ci || exit")
        self.assertIn("bin/checks gate --tools && ", first)
        self.assertIn("bin/checks gate --no-evidence", last)


if __name__ == "__main__":
    unittest.main()
