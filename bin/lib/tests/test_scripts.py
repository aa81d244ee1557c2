"""The scripts as they are called, in a tree that has them, with a stand-in for the kit."""
import ast
import json
import os
import re
import subprocess
import sys
import unittest

import kit
from trees import Scripts

SCRIPTS = sorted(it for it in os.listdir(f"{kit.TOP}/bin") if os.access(f"{kit.TOP}/bin/{it}", os.X_OK)
                 and os.path.isfile(f"{kit.TOP}/bin/{it}"))


class Help(Scripts):
    def test_each_script_has_help_that_starts_nothing(self):
        self.assertGreater(len(SCRIPTS), 8)
        for name in SCRIPTS:
            ran = self.run_script(name, "--help")
            self.assertEqual((ran.returncode, ran.stderr), (0, ""), name)
            self.assertGreater(len(ran.stdout), 100, name)
        self.assertEqual(self.called(), [])
        self.assertFalse(os.path.exists(f"{self.top}/crates/desk/out"))

    def test_each_check_has_help_that_starts_nothing(self):
        listed = [it.split()[0] for it in self.run_script("checks", "--list").stdout.splitlines()]
        wanted = ("asserted backups clients console copies creations documents edges faulty-disks full-books "
                  "handbooks hostile-files install kept-books kills limits migrations openapi operator-days plants "
                  "power-cuts proxy random-days refusals served")
        self.assertEqual(sorted(listed), wanted.split())
        for name in listed:
            self.assertIn("--no-evidence", self.run_script("checks", name, "--help").stdout)
        self.assertEqual(self.called(), [])

    def test_no_name_prints_the_help_and_a_wrong_one_is_an_error(self):
        self.assertIn("usage: bin/checks NAME", self.run_script("checks").stdout)
        self.assertEqual(self.run_script("checks", "skills").returncode, 2)


class Style(unittest.TestCase):
    def files(self):
        for folder, folders, names in os.walk(f"{kit.TOP}/bin"):
            folders[:] = [it for it in folders if it != "__pycache__"]
            for name in names:
                with open(f"{folder}/{name}", encoding="utf-8") as it:
                    yield name, it.read()

    def test_lines_fit_into_120_columns(self):
        for name, text in self.files():
            self.assertEqual([it for it in text.splitlines() if len(it) > 120], [], name)

    def test_functions_have_fewer_than_40_lines(self):
        for name, text in self.files():
            if "python3" in text[:30] or name.endswith(".py"):
                long = [it.name for it in ast.walk(ast.parse(text))
                        if isinstance(it, ast.FunctionDef) and it.end_lineno - it.lineno >= 39]
                self.assertEqual(long, [], name)


class Kit(Scripts):
    def test_only_one_file_calls_into_the_kits_scripts(self):
        calls = r"\.(in_lanes|must_fail|read_edit|build_rlib)\("
        words = (r"\brtlib", r"\[.rt.,", calls, r"kit\.scripts", r"SourceFileLoader\(.rt.")
        of_kit = re.compile("|".join(words))
        found = []
        for folder, folders, files in os.walk(f"{kit.TOP}/bin"):
            folders[:] = [it for it in folders if it not in ("tests", "__pycache__")]
            for name in files:
                with open(f"{folder}/{name}", encoding="utf-8") as it:
                    if of_kit.search(it.read().replace("kit.in_lanes(", "")):
                        found.append(name)
        self.assertEqual(found, ["kit.py"])

    def test_the_gate_keeps_what_it_prints_and_writes_evidence_of_a_whole_run(self):
        self.commit()
        ran = self.run_script("gate-times", "--memory", "0.5", "--anew")
        self.assertEqual(ran.returncode, 0)
        lines = ran.stdout.splitlines()
        self.assertEqual((lines[0], lines[-1]), ("ran ci --anew", "2 passed, 0 failed"))
        head, over, machine, _, shows, rest, _, table, *_, last = self.read("evidence/gate.txt").splitlines()
        self.assertEqual(head, "bin/gate-times --memory 0.5 --anew")
        self.assertEqual((shows[:7], rest[:13]), ("Shows: ", "Cannot show: "))
        self.assertRegex(over, r"^over commit \w{40}, crates \w{12}, bin \w{12}, by a kit of the tests$")
        self.assertRegex(machine, r"^\d+ seconds on 2 processors, ended .*: all as it must be$")
        self.assertEqual((lines[1][:6], table, last), ("rt: ok", lines[2], "2 passed, 0 failed"))
        # (a busy machine takes some minutes)
        for it in (r"low( +\d\.\d){5} +0 +-", r"the gate: \d\.\d processor minutes, .*",
                   r"the gate: \d\.\d lane-minutes, within the limit of 250",
                   r"its mutants: \d\.\d lane-minutes, within the limit of 42"):
            self.assertRegex(ran.stdout, f"\n{it}\n")

    def test_a_gate_that_kept_a_proof_is_not_compared_with_the_limit(self):
        found = [it for it in self.run_script("gate-times").stdout.splitlines() if "lane-minutes, " in it]
        self.assertEqual(len(found), 2)
        for it in found:
            self.assertRegex(it, r"\d\.\d lane-minutes, the rest was kept from earlier runs, so the limit of .* is not")

    def test_the_gate_of_some_crates_writes_none(self):
        self.commit()
        self.assertIn("ran ci low", self.run_script("gate-times", "low").stdout)
        self.assertFalse(os.path.exists(f"{self.top}/evidence"))

    def test_runs_of_the_gate_are_kept_and_put_together(self):
        self.commit()
        for _ in range(2):
            self.assertEqual(self.run_script("gate-times").returncode, 0)
        paths = [f"{self.top}/out/gate/{it}" for it in os.listdir(f"{self.top}/out/gate")]
        self.assertEqual(len(paths), 2)
        ran = self.run_script("gate-times", "--join", *paths)
        self.assertEqual((ran.returncode, ran.stderr), (0, ""))
        text = self.read("evidence/gate.txt")
        self.assertTrue(text.startswith("bin/gate-times --join, of 2 runs\nover commit "), text)
        self.assertTrue(text.endswith(ran.stdout) and ran.stdout.endswith("\n2 passed, 0 failed\n"), text)
        self.write("crates/low/src/more.rt", "")
        self.assertEqual(self.run_script("gate-times").returncode, 0)
        paths = [f"{self.top}/out/gate/{it}" for it in os.listdir(f"{self.top}/out/gate")]
        ran = self.run_script("gate-times", "--join", *paths)
        self.assertEqual((ran.returncode, ran.stdout), (1, ""))
        self.assertIn("is of a tree that no commit has", ran.stderr)

    def test_runs_are_put_together_where_a_crate_above_changed_since(self):
        self.write("crates.txt", "low:\nrtgs_cli_arguments:\ndesk: low rtgs_cli_arguments\n")
        for name in ("low/src/lib.rt", "desk/src/main.rt", "low/src/more.rt"):
            self.write(f"crates/{name}", "// another text")
            self.commit()
            self.assertEqual(self.run_script("gate-times").returncode, 0)
        first, second, third = sorted(os.listdir(f"{self.top}/out/gate"))
        ran = self.joined(second, third)
        self.assertEqual(ran.returncode, 0, ran.stderr)
        self.assertIn(" tasks count by it; changed since, or one below: desk low\n", ran.stdout)
        with open(f"{self.top}/out/gate/{first}", encoding="utf-8") as it:
            self.assertEqual(sorted(json.loads(it.readline())["crates"]), ["desk", "low", "rtgs_cli_arguments"])
        ran = self.joined(first, second)
        self.assertIn("changed since, or one below: desk\n", ran.stdout)

    def joined(self, *names):
        return self.run_script("gate-times", "--join", *(f"{self.top}/out/gate/{it}" for it in names))

    def test_edits_are_tried_over_what_was_kept_and_then_from_nothing(self):
        self.edits()
        ran = self.run_script("mutants", "low")
        self.assertEqual(ran.returncode, 1)
        self.assertIn("b.edit: refused over what was kept\n", ran.stdout)
        self.assertIn("missed.edit: missed\n", ran.stdout)
        self.assertRegex(ran.stdout.splitlines()[-1], "^all: 2 refused, 1 NOT REFUSED; ")
        self.assertEqual(self.run_script("mutants", "--gate", "low/a").returncode, 0)

    def test_edits_that_do_not_apply_are_listed(self):
        self.edits()
        ran = self.run_script("mutants", "--check")
        self.assertEqual(ran.returncode, 1)
        told = ["crates/low/more-mutants/lost.edit: it does not apply", "3 edits apply, 1 do not"]
        self.assertEqual(ran.stdout.splitlines(), told)

    def test_where_there_is_no_kit_that_is_said(self):
        self.edits()
        env = {**os.environ, "PATH": self.path}
        os.remove(f"{self.path}/rt")
        words = [sys.executable, f"{self.top}/bin/mutants", "--check"]
        ran = subprocess.run(words, env=env, capture_output=True, text=True, check=False)
        self.assertEqual((ran.returncode, ran.stdout), (2, ""))
        self.assertIn("the Rattle kit is needed", ran.stderr)


class Checks(Scripts):
    """The runner, over a program that is current and refuses all."""

    def setUp(self):
        super().setUp()
        self.write("crates/desk/out/desk", "#!/bin/sh\necho refused; exit 3\n")
        os.chmod(f"{self.top}/crates/desk/out/desk", 0o755)
        self.write("bin/lib/program", "#!/bin/sh\n")
        os.chmod(f"{self.top}/bin/lib/program", 0o755)

    def test_a_check_that_cannot_go_on_fails_and_the_next_one_runs(self):
        self.commit()
        ran = self.run_script("checks", "kills", "--rounds", "2", "copies", "--rounds", "3")
        self.assertEqual((ran.returncode, ran.stdout.count("could not go on: desk init ")), (1, 2))
        for name, rounds in (("kills", 2), ("copies", 3)):
            text = self.read(f"evidence/{name}.txt")
            self.assertTrue(text.startswith(f"bin/checks {name} --rounds {rounds}\nover commit "), text)
            self.assertIn(": NOT ALL AS IT MUST BE\n", text)
            self.assertIn("\n\ncould not go on: desk init ", text)

    def test_none_is_written_where_it_is_not_wanted_or_a_check_is_not_whole(self):
        self.commit()
        self.run_script("checks", "kills", "--rounds", "2", "--no-evidence", "hostile-files", "--only", "VACUUM")
        self.assertFalse(os.path.exists(f"{self.top}/evidence"))

    def test_none_is_written_of_a_tree_that_no_commit_has_and_that_is_said_first(self):
        self.commit()
        self.write("crates/low/src/more.rt", "")
        ran = self.run_script("checks", "kills", "--rounds", "2")
        told = "bin/checks: no evidence can be written: no commit has crates/ and bin/ as they are\n"
        self.assertTrue(ran.stderr.startswith(told), ran.stderr)
        self.assertIn("could not go on", ran.stdout)
        self.assertFalse(os.path.exists(f"{self.top}/evidence"))
        ran = self.run_script("checks", "all")
        self.assertEqual((ran.returncode, ran.stdout, ran.stderr), (1, "", told))

    def test_a_build_that_fails_ends_all(self):
        self.write("bin/lib/program", "#!/bin/sh\nexit 3\n")
        ran = self.run_script("checks", "kills", "--no-evidence")
        self.assertEqual((ran.returncode, ran.stderr), (1, "checks: the program is not built\n"))


del Scripts


if __name__ == "__main__":
    unittest.main()
