"""How runs end, and what they print where, with a stand-in for the program."""
import os
import re
import unittest
from unittest import mock

import kit
from lib import desks, runs
from lib.runs import Ran

FAKE = f"{os.path.dirname(os.path.realpath(__file__))}/fake_desk.py"
ROW = re.compile(r'^ +Self::\w+ => \((\d+), "(\w+)", [\w()]+, Some\((REFUSED|FAILED)\)\),$', re.M)


class Runs(unittest.TestCase):
    def setUp(self):
        program = mock.patch.object(desks, "DESK", FAKE)
        program.start()
        self.addCleanup(program.stop)

    def test_a_run_is_told_with_its_two_streams(self):
        with desks.room() as folder:
            self.assertEqual(runs.run("init", "a.desk", cwd=folder), Ran(0, "done\n", ""))
        self.assertEqual(runs.run("refuse", "a.desk"), Ran(1, "", "refused 2 NoParticipant\n"))

    def test_a_stream_that_is_not_taken_is_nothing(self):
        with open(os.devnull, "w", encoding="utf-8") as nowhere:
            self.assertEqual(runs.run("refuse", "a.desk", stderr=nowhere), Ran(1, "", ""))


class Refusals(unittest.TestCase):
    def test_they_are_those_of_the_code_that_a_run_may_meet(self):
        with open(f"{kit.TOP}/crates/rtgs_refusals/src/refusal_kind.rt", encoding="utf-8") as it:
            rows = ROW.findall(it.read())
        self.assertGreater(len(rows), 30)
        statuses = {"REFUSED": 1, "FAILED": 3}
        self.assertEqual(runs.refusals(), {int(number): (name, statuses[word]) for number, name, word in rows})

    def test_a_refusal_is_one_line_on_standard_error(self):
        self.assertEqual(runs.refused(1), Ran(1, "", "refused 01 UnknownParticipant\n"))
        self.assertEqual(runs.refused(94, "14"), Ran(3, "", "refused 94 Inconsistent 14\n"))
        self.assertTrue(runs.is_apart(runs.refused(19, "ALFA 1")))
        self.assertTrue(all(runs.is_apart(runs.refused(it)) for it in runs.refusals()))

    def test_what_stands_on_the_wrong_stream_or_ends_otherwise_is_seen(self):
        line = "refused 14 WrongPhase\n"
        self.assertTrue(runs.is_apart(Ran(0, "opened\n")))
        for ran in (Ran(1, line), Ran(0, line, line), Ran(0, "", line), Ran(3, "", line), Ran(1, "opened\n", line),
                    Ran(1, "", f"{line}more"), Ran(1, "", "refused 14 WrongDate\n"), Ran(1, "", "refused 60 BadHead\n"),
                    Ran(1, "opened\n"), Ran(0, "opened\n", "more"), Ran(0), Ran(2, "", "error: a word\n")):
            self.assertFalse(runs.is_apart(ran), ran)
        self.assertTrue(runs.is_apart(Ran(1, "", line)))


if __name__ == "__main__":
    unittest.main()
