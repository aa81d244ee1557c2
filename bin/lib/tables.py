"""What documents take from the code: tables, each of which stands between two lines of comments, which name it; and the
version of the program that is being made, which the program itself says (`--version`); and the refusals in the words of
the operator's console."""
import glob
import importlib.machinery
import importlib.util
import json
import re

import kit
from lib import stated

BEGIN, END = "<!-- {0}: written by bin/tables -->", "<!-- end of {0} -->"


def refusals():
    """Returns the refusals that a run may meet, and what the program says is to be done after each."""
    ends = {number: end for number, (_, _, end) in stated.refusals().items()}
    rows = [f"| {head} | {what} |" for head, _, _, what in stated.explanations() if ends[int(head[:2])] is not None]
    return "\n".join(["| refusal | what to do |", "|---|---|", *rows])


def script(name):
    """Returns a script of bin/ as a module."""
    loader = importlib.machinery.SourceFileLoader(name, f"{kit.TOP}/bin/{name}")
    made = importlib.util.module_from_spec(importlib.util.spec_from_loader(name, loader))
    loader.exec_module(made)
    return made


def rounded(number):
    """Returns a number of which two digits are told, so that it seldom changes."""
    return f"{round(number, 2 - len(str(number))):,}"


def sizes():
    """Returns how many lines there are of each kind of file, and of what the headline reaches."""
    counting = script("sizes")
    files = {kind: glob.glob(f"{counting.CRATES}/*/{folder}/**/*.{end}", recursive=True)
             for kind, (folder, end) in counting.KINDS.items()}
    found = {kind: [it for it in of if not counting.is_of_tests(it)] for kind, of in files.items()}
    found["code of tests"] = [it for it in files["code"] if counting.is_of_tests(it)]
    lines = {what: counting.lines_of(of) for what, of in found.items()}
    lines["definitions and types that the headline reaches"] = counting.headline_lines()
    rows = [f"| {what} | {rounded(number)} |" for what, number in lines.items()]
    return "\n".join(["| what | lines, to two digits |", "|---|---|", *rows])


def page_words():
    """Returns the refusals in the words of `desk explain`, as the operator's console has them."""
    rows = [(*head.split(), means, what) for head, means, _, what in stated.explanations()]
    said = [(int(number), {"name": name, "means": means, "todo": what}) for number, name, means, what in rows]
    return PAGE.format("".join(f"  {number}: {json.dumps(it)},\n" for number, it in said))


PAGE = """\
// The refusals in the words of `desk explain`. `bin/tables` writes this file.
export const refusals = {{
{}}};
"""
# the files that are written whole, and what makes each
FILES = {"console/refusals.js": page_words}
# which documents have which tables, and what makes each
TABLES = {"docs/OPERATORS.md": {"refusals": refusals}, "docs/AUDITORS.md": {"sizes": sizes}}
# Which documents say the version, and how: the form of that line, of which the first part stays. A version that was
# released has its commit in its heading, and stays whole.
NEWEST = r"(\A(?:(?!## ).*\n)*## )"
VERSIONS = {
    "CHANGELOG.md": (rf"{NEWEST}[\d.]+, tables version \d+$", "{0}, tables version {1}"),
    "docs/CALLERS.md": (rf"{NEWEST}[\d.]+$", "{0}"),
    "docs/openapi.yaml": (r"(^  version: )\S.*$", "{0}"),
    "docs/OPERATORS.md": (r"(^    desk )\d.*$", "{0}, tables {1}"),
}


def written(name, text):
    """Returns the text of a document with its tables and its version, as they are to be."""
    if name in FILES:
        return FILES[name]()
    if name in VERSIONS:
        form, said = VERSIONS[name]
        text = re.sub(form, lambda found: found[1] + said.format(*stated.version()), text, count=1, flags=re.M)
    for table, made in TABLES.get(name, {}).items():
        begin, end = BEGIN.format(table), END.format(table)
        place = re.compile(f"{re.escape(begin)}\n.*?{re.escape(end)}", re.S)
        if len(place.findall(text)) != 1:
            raise ValueError(f"{name} has no one place for the table {table}")
        text = place.sub(lambda _, lines=f"{begin}\n\n{made()}\n\n{end}": lines, text)
    return text


def differing():
    """Returns for each document whose tables or version differ what it must be."""
    found = {}
    for name in {**TABLES, **VERSIONS, **FILES}:
        there = stated.content(f"{kit.TOP}/{name}")
        wanted = written(name, there)
        if wanted != there:
            found[name] = wanted
    return found
