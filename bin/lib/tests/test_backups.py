"""What deploy/desk-backup does with the copies it has, with a program that opens everything, or nothing."""
import os
import subprocess
import unittest

import kit
from lib import desks
from lib.checks import backups


class Backups(unittest.TestCase):
    def setUp(self):
        folder = desks.room()
        self.addCleanup(folder.cleanup)
        self.book, self.to = f"{folder.name}/bank.desk", f"{folder.name}/copies"
        for path, text in ((self.book, "the book"), (f"{self.book}.lock", "")):
            with open(path, "w", encoding="utf-8") as it:
                it.write(text)

    def backup(self, *words, desk="/bin/true", before=""):
        """Returns the status, the output and the errors of a run of the script."""
        env = {**os.environ, "DESK": desk}
        line = ["sh", "-c", f'{before} exec "$0" "$@"', backups.SCRIPT, *words]
        ran = subprocess.run(line, env=env, capture_output=True, text=True, check=False)
        return ran.returncode, ran.stdout, ran.stderr

    def copies(self):
        return backups.copies(self.to)

    def test_copies_are_made_and_the_newest_are_kept(self):
        made = [self.backup("--keep", "2", self.book, self.to)[1].split(",")[0] for _ in range(3)]
        self.assertEqual(self.copies(), made[1:])
        self.assertEqual(desks.content(made[-1]), b"the book")
        self.assertEqual(sorted(os.listdir(self.to)), sorted([".lock", *map(os.path.basename, made[1:])]))

    def test_a_copy_that_does_not_open_or_is_cut_off_leaves_the_earlier_ones(self):
        self.backup(self.book, self.to)
        before = self.copies()
        with open(self.book, "a", encoding="utf-8") as it:
            it.write("x" * 100000)
        for how in ({"desk": "/bin/false"}, {"before": "ulimit -f 8;"}):
            status, said, errors = self.backup("--keep", "1", self.book, self.to, **how)
            self.assertEqual((status, said), (1, ""), how)
            self.assertIn(f"the last good copy is {before[0]}, ", errors)
            self.assertEqual(self.copies(), before)
            self.assertEqual(sorted(os.listdir(self.to)), [".lock", os.path.basename(before[0])])

    def test_a_copy_and_then_its_folder_are_synced(self):
        tools, told = f"{self.to}-tools", f"{self.to}-synced"
        os.mkdir(tools)
        with open(f"{tools}/sync", "w", encoding="utf-8") as it:
            it.write(f'#!/bin/sh\necho "$@" >> {told}\nls {self.to} >> {told}\n')
        os.chmod(it.name, 0o755)
        made = self.backup(self.book, self.to, before=f"PATH={tools}:$PATH")[1].split(",")[0]
        with open(told, encoding="utf-8") as it:
            first, *listed, last, name = it.read().splitlines()
        self.assertRegex(first, rf"{self.to}/\.part-\w+/\S+ {self.to}/\.part-\w+$")
        self.assertEqual((listed, last, name), ([], self.to, os.path.basename(made)))

    def test_a_tool_that_holds_the_lock_is_waited_for_and_not_held_still(self):
        with subprocess.Popen(["flock", f"{self.book}.lock", "sleep", "1"]):
            self.assertEqual(self.backup(self.book, self.to)[0], 0)

    def test_the_age_of_the_last_copy_is_told_and_judged(self):
        self.assertEqual(self.backup("--last", self.book, self.to)[0], 1)
        self.backup(self.book, self.to)
        os.utime(self.copies()[0], (1, 1))
        self.assertEqual(self.backup("--last", self.book, self.to)[0], 0)
        self.assertEqual(self.backup("--last", "--within", "60", self.book, self.to)[0], 1)

    def test_a_copy_is_put_back_and_the_book_that_was_there_is_kept(self):
        self.backup(self.book, self.to)
        for end in ("", "-wal"):
            with open(f"{self.book}{end}", "w", encoding="utf-8") as it:
                it.write(f"another{end}")
        self.assertEqual(self.backup("--restore", self.copies()[0], self.book, desk="/bin/false")[0], 1)
        self.assertEqual(desks.content(self.book), b"another")
        status, said, _ = self.backup("--restore", self.copies()[0], self.book)
        self.assertEqual((status, desks.content(self.book), os.path.exists(f"{self.book}-wal")),
                         (0, b"the book", False))
        away = said.split()[-1]
        self.assertEqual((desks.content(away), desks.content(f"{away}-wal")), (b"another", b"another-wal"))

    def test_words_that_are_wrong_do_nothing(self):
        for words in ([], ["a"], ["--keep", "0", self.book, self.to], ["--keep", "x", self.book, self.to],
                      ["--other", self.book, self.to]):
            self.assertEqual(self.backup(*words)[0], 2, words)
        self.assertFalse(os.path.exists(self.to))
        with open(f"{kit.TOP}/deploy/desk-backup", encoding="utf-8") as it:
            self.assertIn("@PREFIX@/bin/desk", it.read())


if __name__ == "__main__":
    unittest.main()
