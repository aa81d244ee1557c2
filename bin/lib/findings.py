"""The files of evidence/ as they are read again: which run wrote each, over which tree, and how it ended. And the table
of all of them, evidence/README.md."""
import ast
import glob
import os
import re
import tempfile
import textwrap
import typing

import kit

# what writes the files that are no check's
SCRIPTS = {"edits": "bin/mutants", "gate": "bin/gate-times"}
# the check that every gate runs again, and that writes no file
WITHOUT_FILE = "documents"
END = {True: "all as it must be", False: "NOT ALL AS IT MUST BE"}
HEAD = re.compile(rf"(.*)\nover commit (\w+), crates (\w+), bin (\w+), by (.*)\n(.*), ended (\S+) (.*): ({END[True]}|"
                  rf"{END[False]})")
# the heads of files that name no tree, as scripts wrote them before
NO_TREE = re.compile(r"(.*) over (\w+)(?:-dirty)?, by (.*)\n(.*), ended (\S+) (.*)")
THIS, OTHER_SCRIPTS, OTHER = "of this tree", "of this program, by other scripts", "of another tree"
WORDS = ("Shows", "Cannot show")
UNNAMED, UNKNOWN = "it names no tree", "not compared, since no commit has this tree"
# how much of a name of git's stands in the files
SHORT = 12
NOT_RUN, BAR = ("", "", "not run"), "\\|"
INTRODUCTION = """\
# Evidence

What the last run of each check found. `bin/checks --table` makes this table of the files beside it and of what the
checks say of themselves; so does each run that writes a file.

A run is of one tree, which is named by what git calls its folders `crates` and `bin`: a row is of a checkout if it has
the beginnings of both names that `git rev-parse HEAD:crates HEAD:bin` prints there, and shows nothing of any other one.
`bin/checks documents` says of each file whether it is of the tree that is checked out. Where no tree is named, an
earlier form of the script wrote the file.

| check | what it shows | what it cannot show | tree: crates, bin | date | result |
|---|---|---|---|---|---|
"""


class Tree(typing.NamedTuple):
    """A commit, and git's names of its folders of the program and of the scripts."""

    commit: str
    crates: str
    bin: str


class Finding(typing.NamedTuple):
    """A file of evidence: the run, its tree, or None where it names none, the kit, its day, its end, what it says that
    it shows and cannot show, and its lines."""

    command: str
    tree: typing.Optional[Tree]
    kit: str
    date: str
    is_well: bool
    said: list
    lines: list


def folder():
    return f"{kit.TOP}/evidence"


def path_of(name):
    return f"{folder()}/{name}.txt"


def head(command, tree, version, ended):
    """Returns the lines that a file begins with."""
    return f"{command}\nover commit {tree.commit}, crates {tree.crates}, bin {tree.bin}, by {version}\n{ended}"


def read(text):
    """Returns what a file of evidence says."""
    top, _, rest = text.partition("\n\n")
    found = HEAD.fullmatch(top)
    if found:
        tree = Tree(*found.groups()[1:4])
        said, _, lines = rest.partition("\n\n")
        return Finding(found[1], tree, found[5], found[7], found[9] == END[True], said_in(said), lines.splitlines())
    found = NO_TREE.match(top)
    if not found:
        raise ValueError(f"no file of evidence begins so: {top[:200]}")
    return Finding(found[1], None, found[3], found[5], True, said_in(""), rest.splitlines())


def all_files():
    """Returns what each file of evidence says, by its name."""
    found = {}
    for path in sorted(glob.glob(f"{folder()}/*.txt")):
        with open(path, encoding="utf-8") as it:
            found[os.path.basename(path)[:-4]] = read(it.read())
    return found


def state(finding, tree):
    """Returns in words whether a file is of this tree."""
    if not finding.tree:
        return UNNAMED
    if not tree:
        return UNKNOWN
    if finding.tree.crates != tree.crates:
        return OTHER
    return THIS if finding.tree.bin == tree.bin else OTHER_SCRIPTS


# What the scripts say of themselves


def writers():
    """Returns the script that writes each file of evidence, by the file's name."""
    found = dict(SCRIPTS)
    for path in glob.glob(f"{kit.TOP}/bin/lib/checks/*.py"):
        name = os.path.basename(path)[:-3].replace("_", "-")
        if name != WITHOUT_FILE:
            found[name] = os.path.relpath(path, kit.TOP)
    return dict(sorted(found.items()))


def said_by(name):
    """Returns what the run of a file shows and what it cannot show, as the help of its script says it."""
    with open(f"{kit.TOP}/{writers()[name]}", encoding="utf-8") as it:
        return said_in(ast.get_docstring(ast.parse(it.read())) or "")


def said_in(text):
    """Returns what a text says that a run shows and cannot show: nothing where it does not."""
    found = [re.search(rf"^{word}: (.*?)(?=\n\n|\n[A-Z][a-z ]+: |\Z)", text, re.M | re.S) for word in WORDS]
    return [" ".join(it[1].split()) if it else "" for it in found]


def explained(name):
    """Returns the lines of a file of evidence that say what its run shows, and what it cannot show."""
    whole = {"break_on_hyphens": False, "break_long_words": False}
    return "\n".join(textwrap.fill(f"{word}: {text}", 120, **whole) for word, text in zip(WORDS, said_by(name)))


# The table


def table():
    """Returns the text of the table of all files of evidence."""
    found = all_files()
    return INTRODUCTION + "".join(row(it, found.get(it)) for it in writers())


def row(name, finding):
    """Returns the row of a file, which says what its own run showed, or of a check of which there is none."""
    cells = [f"[{name}]({name}.txt)", *finding.said, *told(finding)] if finding else [name, *said_by(name), *NOT_RUN]
    return f"| {' | '.join(it.replace('|', BAR) for it in cells)} |\n"


def told(finding):
    """Returns the tree of a file, its day, and its last line, which sums up what was found."""
    tree = f"`{finding.tree.crates}`, `{finding.tree.bin}`" if finding.tree else "not named"
    end = finding.lines[-1].strip() if finding.lines else ""
    return tree, finding.date, end if finding.is_well else f"{END[False]}: {end}"


def write_table():
    """Writes the table of all files of evidence, at once, since checks that run side by side write it too."""
    path = f"{folder()}/README.md"
    with tempfile.NamedTemporaryFile("w", encoding="utf-8", dir=folder(), delete=False) as it:
        it.write(table())
    os.chmod(it.name, 0o644)
    os.replace(it.name, path)
