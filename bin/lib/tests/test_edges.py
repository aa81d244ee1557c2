"""The check `edges` over a program that is stood in for."""
import fcntl
import os
import re
import unittest
from unittest import mock

from lib import desks, runs
from lib.checks import edges
from lib.report import Report


def quiet():
    return Report(lambda *_, **__: None)


class Program:
    """Stands in for the program: it gives each line of `spaced_names` its answer, and adds the words of what acts to
    the book. The names of a book, of its lock and of an order file are changed by functions first."""

    def __init__(self, book=str, lock=str, orders=str):
        self.names = {"book": book, "lock": lock, "orders": orders}
        lines = [*edges.OF_SPACED, "credit @ BETA 7 => credit set"]
        self.answers = {line.split(" => ")[0].split(" ")[0]: line.split(" => ")[1] for line in lines
                        if "!" not in line}

    def run(self, command, book="", *words, cwd, **_):
        """Returns how a run of these words ends in this folder."""
        path = f"{cwd}/{self.names['book'](book)}"
        with open(f"{cwd}/{self.names['lock'](book)}.lock", "ab") as lock:
            try:
                fcntl.flock(lock, fcntl.LOCK_EX | fcntl.LOCK_NB)
            except OSError:
                return runs.refused(95)
            if os.path.exists(path) == (command == "init"):
                return runs.refused(96 if command == "init" else 93)
            if command == "import" and not os.path.exists(f"{cwd}/{self.names['orders'](words[1])}"):
                return runs.refused(98)
            for it in (path, f"{path}-wal"):
                with open(it, "a", encoding="utf-8") as file:
                    file.write(" ".join([command, *words]))
        return edges.wanted(self.answers.get(command, "none"))[0]


class Names(unittest.TestCase):
    def wrong(self, **names):
        """Returns what is found of a program that changes names so, each thing in its first line."""
        report = quiet()
        with desks.room() as folder, mock.patch.object(runs, "run", Program(**names).run):
            edges.spaced_names(edges.Edges(folder, report, edges.SPACED))
        return [it.splitlines()[0] for it in report.found]

    def test_a_program_that_takes_names_as_they_are_is_well(self):
        self.assertEqual(self.wrong(), [])

    def test_a_name_without_its_spaces_is_found(self):
        self.assertEqual(self.wrong(book=str.strip)[:1], ["init @"])
        found = self.wrong(lock=str.strip)
        self.assertEqual(found[:2], [f"files beside '{edges.SPACED}'", f"{edges.EACH[0]} of {edges.SPACED}"])
        self.assertEqual(found[-1], "credit @ BETA 7")

    def test_an_order_file_without_its_spaces_is_found(self):
        self.assertEqual(self.wrong(orders=lambda name: f"{name.strip()}.csv")[:1], [f"import @ ALFA '{edges.ORDERS}'"])


class LongOrders(unittest.TestCase):
    def test_the_longest_order_file_has_an_order_at_its_end_and_in_each_piece(self):
        rows, text = edges.long_rows()
        self.assertEqual(len(text), edges.LONGEST)
        self.assertTrue(text.startswith(edges.HEADER) and text.endswith(f"\n{rows[-1]}"))
        self.assertEqual([it for it in text.splitlines() if it], [edges.HEADER.strip(), *rows])
        for size in range(4096, edges.LONGEST, 4096):
            self.assertLess(len([it for it in text[:size].splitlines() if it in rows]), len(rows))
            self.assertIn("L-", text[size:size + 4096])


class Version(unittest.TestCase):
    def test_the_version_names_a_kit_with_the_logic_at_hand_and_a_commit(self):
        version, kit = edges.VERSION.format(re.escape("logic (0)")), "rattle-kit-1f"
        for commit in ("$Format:%H$", "0a" * 20):
            self.assertTrue(re.fullmatch(version, f"desk 0.13.0, tables 3, {kit} logic (0), commit {commit}\n"))
        for said in (f"{kit} logic (1), commit $Format:%H$", f"{kit} logic (0), commit 0a", "not proved, commit 0a"):
            self.assertFalse(re.fullmatch(version, f"desk 0.13.0, tables 3, {said}\n"), said)


class Misused(unittest.TestCase):
    def test_each_command_is_given_a_word_more(self):
        of_more = {it.split(" ")[0] for it in edges.MISUSED if it.endswith(" more")}
        self.assertEqual(of_more, {it.split(" ")[0] for it in edges.EACH} - {"serve"})

    def test_a_word_more_that_is_dropped_is_found(self):
        for ran, wrong in ((runs.Ran(2, "", "error: more\n"), 0), (runs.Ran(0, "done\n"), 1), (runs.refused(97), 1)):
            report = quiet()
            with desks.room() as folder, mock.patch.object(runs, "run", lambda *_, **__: ran):
                edges.is_misused(edges.Edges(folder, report), "serve @ more")
            self.assertEqual(report.wrong, wrong)
