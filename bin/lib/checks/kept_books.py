"""Migrates books that earlier versions of the program made, and asks for all that can be read of each.

The books stand in kept_books, with the words of each run and what the program of their time printed: the
program must print the same, to the byte.

Shows: that the books of earlier versions are migrated, and read as the program of their time read them.
Cannot show: anything of books that are not kept.
"""
import os
import shutil
import tempfile

import kit
from lib import runs

KEPT = f"{kit.TOP}/kept_books"


def kept(name):
    """Returns the lines of a file that is kept beside the books."""
    with open(f"{KEPT}/{name}", encoding="utf-8") as it:
        return it.read().splitlines(keepends=True)


def parts(printed):
    """Returns what is printed of each run: a line with its words, and all up to the next such line."""
    found = []
    for line in printed:
        if line.startswith("$ desk "):
            found.append("")
        found[-1] += line
    return found


def run(_given, report):
    asked, wanted = kept("asked"), parts(kept("printed"))
    books = sorted(it for it in os.listdir(KEPT) if it.endswith(".desk"))
    report.sees("the runs", len(asked), len(wanted))
    report.sees("the books that are asked for", sorted({it.split()[1] for it in asked}), books)
    with tempfile.TemporaryDirectory(prefix="kept-books-") as folder:
        here = shutil.copytree(KEPT, f"{folder}/books")
        for words, text in zip(asked, wanted):
            ran = runs.run(*words.split(), cwd=here)
            report.sees(f"desk {words.strip()}", f"$ desk {words}{ran.out}{ran.err}", text)
    told = f"{report.right} things as they must be, {report.wrong} not"
    report.sums(f"{len(asked)} runs over {len(books)} books of earlier versions: {told}")
