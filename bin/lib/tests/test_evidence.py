"""What is found, and written down."""
import glob
import io
import os
import re
import shutil
import subprocess
import tempfile
import unittest
from unittest import mock

import kit
from lib import desks, evidence, findings
from lib.checks import asserted
from lib.report import Report


class Reports(unittest.TestCase):
    def setUp(self):
        self.shown = []
        self.report = Report(lambda line, **_: self.shown.append(line))

    def test_what_is_as_it_must_be_is_counted_alone(self):
        self.report.sees("a sum", 4, 4)
        self.assertEqual((self.report.right, self.report.wrong, self.shown), (1, 0, []))

    def test_what_is_not_is_found_with_both(self):
        self.report.sees("a sum", 5, 4)
        self.assertEqual((self.report.right, self.report.wrong), (0, 1))
        self.assertEqual(self.report.found, ["a sum\n  must be: 4\n  is:      5"])
        self.assertEqual(self.shown, self.report.found)

    def test_the_sum_is_the_last_of_what_is_found(self):
        self.assertFalse(self.report.is_summed())
        self.report.finds("a")
        self.report.sums("a")
        self.assertTrue(self.report.is_summed())
        self.assertEqual((self.report.found, self.shown), (["a", "a"], ["a", "a"]))
        self.report.keeps("a")
        self.assertFalse(self.report.is_summed())

    def test_a_thing_is_told_and_kept_where_it_is_not_well(self):
        self.report.judges(True, "a")
        self.report.judges(False, "b")
        self.assertEqual((self.report.right, self.report.wrong, self.report.found), (1, 1, ["b"]))
        self.assertEqual(self.shown, ["a", "b"])


class Trees(unittest.TestCase):
    """A tree of git that has the folders of a program and of scripts."""

    def setUp(self):
        folder = tempfile.TemporaryDirectory()
        self.addCleanup(folder.cleanup)
        self.top = folder.name
        for place in (mock.patch.object(kit, "TOP", self.top), mock.patch.object(kit, "version", lambda: "a kit")):
            place.start()
            self.addCleanup(place.stop)
        for name in ("crates/low/lib.rt", "bin/gate-times", "bin/mutants", "docs/A.md"):
            self.write(name, '"""A script.\n\nShows: what it\nshows | all.\nCannot show: the rest.\n"""\n')
        self.git("init", "-q")
        self.commit()

    def write(self, name, text):
        os.makedirs(os.path.dirname(f"{self.top}/{name}"), exist_ok=True)
        with open(f"{self.top}/{name}", "w", encoding="utf-8") as it:
            it.write(text)

    def read(self, name):
        with open(f"{self.top}/{name}", encoding="utf-8") as it:
            return it.read()

    def git(self, *words):
        who = ["-c", "user.name=A", "-c", "user.email=a@b.example"]
        return subprocess.run(["git", *who, *words], cwd=self.top, check=True, capture_output=True, text=True).stdout

    def commit(self):
        self.git("add", "-A")
        self.git("commit", "-q", "-m", "A")

    def names(self):
        return [it[:12] for it in self.git("rev-parse", "HEAD:crates", "HEAD:bin").split()]

    def finding(self, name="gate"):
        return findings.all_files()[name]


class Evidence(Trees):
    def test_the_file_says_what_ran_over_what_and_what_it_found(self):
        run = evidence.Evidence("bin/gate-times", 4)
        run.write("gate", ["earlier"], False)
        self.assertEqual((self.finding().is_well, self.finding().lines), (False, ["earlier"]))
        run.write("gate", ["3 kills", "", "4 kills"], True)
        command, over, machine, empty, shows, rest, *found = self.read("evidence/gate.txt").split("\n")
        names = self.names()
        self.assertEqual((command, empty), ("bin/gate-times", ""))
        commit = self.git("rev-parse", "HEAD").strip()
        self.assertEqual(over, f"over commit {commit}, crates {names[0]}, bin {names[1]}, by a kit")
        machine_form = r"^\d+ seconds on 4 processors, ended \d{4}-\d\d-\d\d \d\d:\d\d UTC: all as it must be$"
        self.assertRegex(machine, machine_form)
        self.assertEqual((shows, rest), ("Shows: what it shows | all.", "Cannot show: the rest."))
        self.assertEqual(found, ["", "3 kills", "", "4 kills", ""])
        self.assertEqual(sorted(os.listdir(f"{self.top}/evidence")), ["README.md", "gate.txt"])

    def test_it_is_written_over_a_tree_that_a_commit_has_and_documents_may_differ(self):
        self.write("docs/A.md", "B")
        self.write("evidence/more", "B")
        self.assertEqual(evidence.why_none(), "")
        for name in ("crates/low/more.rt", "bin/gate-times"):
            before = self.read("bin/gate-times")
            self.write(name, "B")
            self.assertEqual(evidence.why_none(), "no commit has crates/ and bin/ as they are")
            self.assertFalse(self.is_written(evidence.Evidence("bin/gate-times", 4)), name)
            self.write("bin/gate-times", before)
            shutil.rmtree(f"{self.top}/crates/low")
            self.git("checkout", "-q", "crates")
        self.assertTrue(self.is_written(evidence.Evidence("bin/gate-times", 4)))
        shutil.rmtree(f"{self.top}/.git")
        self.assertEqual(evidence.why_none(), "this tree is no checkout of git")

    def is_written(self, run):
        """Returns whether a run writes a file, and else says so."""
        with mock.patch("sys.stderr", io.StringIO()) as said:
            run.write("gate", ["A"], True)
        is_there = os.path.exists(f"{self.top}/evidence/gate.txt")
        self.assertEqual("evidence/gate.txt is not written" in said.getvalue(), not is_there)
        return is_there

    def test_none_is_written_of_a_tree_that_changed_meanwhile(self):
        run = evidence.Evidence("bin/gate-times", 4)
        self.write("crates/low/lib.rt", "B")
        self.commit()
        self.assertFalse(self.is_written(run))

    def test_none_is_written_of_a_program_that_is_not_proved(self):
        program = f"{self.top}/desk"
        with open(program, "w", encoding="utf-8") as it:
            it.write("#!/bin/sh\necho desk 1.2, tables 3, not proved, commit x\n")
        os.chmod(program, 0o755)
        run = evidence.Evidence("bin/checks kills", 4)
        with mock.patch.object(desks, "DESK", program), self.assertRaisesRegex(desks.Broken, "not proved"):
            run.write("kills", ["3 kills"], True)
        self.assertFalse(os.path.exists(f"{self.top}/evidence"))

    def test_times_are_told_in_words(self):
        self.assertEqual([evidence.time_of(it) for it in (9.6, 119, 5220)], ["10 seconds", "119 seconds", "87 minutes"])

    def test_a_commit_is_named_in_full(self):
        self.assertRegex(evidence.commit(), r"^([0-9a-f]{40}(-dirty)?|unknown)$")


class Findings(Trees):
    def test_a_file_is_of_this_tree_while_program_and_scripts_stay(self):
        evidence.Evidence("bin/gate-times", 4).write("gate", ["A"], True)
        self.commit()
        self.assertEqual(findings.state(self.finding(), evidence.tree()), findings.THIS)
        for name, state in (("docs/A.md", findings.THIS), ("bin/more", findings.OTHER_SCRIPTS),
                            ("crates/low/lib.rt", findings.OTHER)):
            self.write(name, "B")
            self.commit()
            self.assertEqual(findings.state(self.finding(), evidence.tree()), state)
        self.assertEqual(findings.state(self.finding(), None), findings.UNKNOWN)

    def test_a_file_of_before_names_no_tree(self):
        machine = "1 seconds on 4 processors, ended 2026-01-02 03:04 UTC"
        found = findings.read(f"bin/old over 12ab-dirty, by a kit\n{machine}\n\nA\n")
        self.assertEqual(found, findings.Finding("bin/old", None, "a kit", "2026-01-02", True, ["", ""], ["A"]))
        self.assertEqual(findings.state(found, evidence.tree()), findings.UNNAMED)
        self.assertRaises(ValueError, findings.read, "# A text\n")

    def test_the_table_has_a_row_of_each_script(self):
        evidence.Evidence("bin/gate-times", 4).write("gate", ["A", "  1 passed, 1 failed"], False)
        edits, gate = self.read("evidence/README.md").splitlines()[-2:]
        self.assertEqual(edits, "| edits | what it shows \\| all. | the rest. |  |  | not run |")
        tree = "`, `".join(self.names())
        end = f"| `{tree}` | {self.finding().date} | NOT ALL AS IT MUST BE: 1 passed, 1 failed |"
        self.assertEqual(gate, f"| [gate](gate.txt) | what it shows \\| all. | the rest. {end}")

    def test_the_row_of_a_run_says_what_that_run_showed(self):
        words = f"{'one-more ' * 40}two"
        self.write("bin/mutants", f'"""A script.\n\nShows: {words}.\nCannot show: {words}.\n"""\n')
        self.assertEqual(findings.said_in(findings.explained("edits")), [f"{words}."] * 2)
        self.commit()
        evidence.Evidence("bin/gate-times", 4).write("gate", ["A"], True)
        self.write("bin/gate-times", '"""A script.\n\nShows: more.\nCannot show: less.\n"""\n')
        before = self.read("evidence/README.md")
        self.assertEqual(findings.table(), before)
        os.remove(f"{self.top}/evidence/gate.txt")
        self.assertIn("\n| gate | more. | less. |  |  | not run |\n", findings.table())


class Scripts(unittest.TestCase):
    def test_each_script_that_writes_evidence_says_what_it_shows_and_what_it_cannot(self):
        names = list(findings.writers())
        self.assertGreater(len(names), 15)
        self.assertNotIn(findings.WITHOUT_FILE, names)
        for name in names:
            shows, rest = findings.said_by(name)
            self.assertTrue(shows.endswith(".") and rest.endswith("."), name)


class Asserted(unittest.TestCase):
    """What is read from the tests of the gate."""

    def test_requests_and_replies_are_as_many_as_were_sent(self):
        found = [it.replace(",", "") for it in asserted.lines()]
        (count,) = [re.findall(r"\d+$", it) for it in found if it.startswith("Hostile requests of the generator")]
        for start in ("  readings", "  replies"):
            (line,) = [it for it in found if it.startswith(start)]
            counts = re.findall(r": (\d+)", line.split(": ", 1)[1])
            self.assertEqual(sum(map(int, counts)), int(count[0]), line)

    def test_each_test_of_failing_stores_is_told(self):
        found = [it for it in asserted.lines() if it.startswith("Failures, ")]
        text = "".join(asserted.stated.content(it) for it in glob.glob(f"{asserted.FAILING}/*.rt"))
        form = r"^    (?:meets\(|if each_of_the_keeper\(|is_migrated\(|if log == \(|reads_are\()"
        calls = re.findall(form, text, re.M)
        self.assertEqual(len(found), len(calls))
        self.assertGreater(len(found), 25)


if __name__ == "__main__":
    unittest.main()
