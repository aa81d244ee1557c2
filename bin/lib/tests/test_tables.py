"""The tables that documents take from the code, and the counts of lines."""
import re
import unittest
from unittest import mock

from lib import desks, stated, tables

BEGIN, END = tables.BEGIN.format("few"), tables.END.format("few")


class Tables(unittest.TestCase):
    def written(self, text):
        with mock.patch.dict(tables.TABLES, {"a.md": {"few": lambda: "| a |"}}):
            return tables.written("a.md", text)

    def test_a_table_is_written_between_its_lines_and_nowhere_else(self):
        whole = f"Before.\n{BEGIN}\n\n| a |\n\n{END}\nAfter.\n"
        self.assertEqual(self.written(f"Before.\n{BEGIN}\nold\n{END}\nAfter.\n"), whole)
        self.assertEqual(self.written(whole), whole)

    def test_a_document_without_the_place_of_its_table_is_a_fault(self):
        for text in ("", f"{BEGIN}\n", f"{BEGIN}\n{END}\n{BEGIN}\n{END}\n"):
            self.assertRaises(ValueError, self.written, text)

    def test_the_version_is_written_where_documents_say_it(self):
        olders = "\n\n## 0.12.0, tables version 3\n"
        with mock.patch.object(stated, "version", return_value=("1.4.0", "7", "a kit")):
            for name, old, new in (
                    ("CHANGELOG.md", f"# A\n\n## 0.13.0, tables version 3{olders}",
                     f"# A\n\n## 1.4.0, tables version 7{olders}"),
                    ("docs/CALLERS.md", "# A\n\n## 0.13.0\n\n## 0.12.0\n", "# A\n\n## 1.4.0\n\n## 0.12.0\n"),
                    ("docs/openapi.yaml", "info:\n  version: 0.13.0\n", "info:\n  version: 1.4.0\n")):
                self.assertEqual(tables.written(name, old), new)
            with mock.patch.object(tables, "TABLES", {}):
                shown = "    $ desk --version | cut -d , -f 1,2\n    desk {}, tables {}\n"
                written = tables.written("docs/OPERATORS.md", shown.format("0.13.0", 3))
                self.assertEqual(written, shown.format("1.4.0", 7))
                self.assertEqual(sorted(tables.differing()), sorted(tables.VERSIONS))
            released = f"# A\n\n## 0.13.0, tables version 3, commit a1{olders}"
            self.assertEqual(tables.written("CHANGELOG.md", released), released)

    def test_each_refusal_of_a_run_has_a_row(self):
        rows = re.findall(r"^\| (\d\d) ", tables.refusals(), re.M)
        wanted = [it for it, of in sorted(stated.refusals().items()) if of[2] is not None]
        self.assertEqual([int(it) for it in rows], wanted)
        self.assertGreater(len(rows), 30)


class Sizes(unittest.TestCase):
    def test_two_digits_of_a_number_are_told(self):
        told = [tables.rounded(it) for it in (7, 91, 149, 1843, 26766, 99999)]
        self.assertEqual(told, ["7", "91", "150", "1,800", "27,000", "100,000"])

    def test_the_table_has_a_row_for_each_kind_of_file(self):
        rows = dict(re.findall(r"^\| ([a-z ]+) \| ([\d,]+) \|$", tables.sizes(), re.M))
        self.assertEqual(list(rows)[:3], ["code", "definitions", "proofs"])
        self.assertEqual(len(rows), 5)
        lines = {what: int(number.replace(",", "")) for what, number in rows.items()}
        self.assertLess(lines["definitions and types that the headline reaches"], lines["definitions"])

    def test_the_headline_has_the_files_that_its_comment_counts(self):
        script = tables.script("sizes")
        files = [(crate, it) for crate, listed in script.headline().items() for it in listed]
        counted = re.search(r"read these (\d+) files:[^\n]*\n(?:// [^\n]*\n)*pub fn make_and_live\b",
                            stated.content(f"{script.CRATES}/rtgs_promises/src/headline.rt"))
        self.assertEqual(len(files), int(counted[1]))
        self.assertIn(("rtgs_lists", "IntSum"), files)
        self.assertIn(("rtgs_book", "order.rt"), files)

    def test_lines_are_counted_and_crates_of_tests_known(self):
        script = tables.script("sizes")
        with desks.room() as folder:
            for name, text in (("a", "1\n2\n"), ("b", "3\n")):
                with open(f"{folder}/{name}", "w", encoding="utf-8") as it:
                    it.write(text)
            self.assertEqual(script.lines_of([f"{folder}/a", f"{folder}/b"]), 3)
        known = {it: script.is_of_tests(f"{script.CRATES}/{it}/src/lib.rt") for it in ("rtgs_book", "rtgs_cli_trials")}
        self.assertEqual(known, {"rtgs_book": False, "rtgs_cli_trials": True})
