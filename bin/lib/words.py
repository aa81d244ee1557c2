"""The words that no text uses, as CONTRIBUTING.md lists them, and where they stand all the same.

They are looked for in documents, scripts and what lies beside them as a whole, and in the comments of .rt and .antt
files: what a program prints stays as it is.
"""
import os
import re

import kit
from lib import stated

LIST = "CONTRIBUTING.md"
ROW = re.compile(r'^\| ("[^|]*) \| [^|]+ \|$', re.M)
# what has the words by its office: their check, what stands in for the kit, what was found earlier, and what the
# program prints
LEFT_OUT = re.compile(r"bin/lib/(?:words\.py|tests/test_words\.py|tests/fake_rt\.py)"
                      r"|kept_books/.*\.txt|evidence/.*\.txt|console/refusals\.js")
WHOLE = re.compile(r"bin/.*|docs/.*|deploy/.*|console/.*|\.ci/.*|.*\.md")
COMMENTS = {".rt": re.compile(r"//[^\n]*"), ".antt": re.compile(r"--[^\n]*")}


def avoided(listed):
    """Returns what finds the words that the list names in quotes. None is a part of another word, or of an option."""
    words = [it for row in ROW.findall(listed) for it in re.findall(r'"([^"]+)"', row)]
    told = "|".join(r"\s+(?:(?:///?!?|--|#)\s+)?".join(map(re.escape, it.split())) for it in words)
    return words, re.compile(rf"(?<![-\w`])(?:{told})(?![\w`=(])", re.I)


def texts(path, text):
    """Returns what of a file is read by people, or nothing where that is not looked at."""
    end = os.path.splitext(path)[1]
    if LEFT_OUT.fullmatch(path):
        return ""
    if path == LIST:
        return ROW.sub("", text)
    if end in COMMENTS:
        return "\n".join(COMMENTS[end].findall(text))
    return text if WHOLE.fullmatch(path) else ""


def paths():
    """Yields the paths of the files of the tree."""
    for folder, folders, files in os.walk(kit.TOP):
        folders[:] = sorted(it for it in folders if it not in (".git", "out", "__pycache__"))
        for it in sorted(files):
            yield os.path.relpath(f"{folder}/{it}", kit.TOP)


def found():
    """Returns for each file that has words of the list how many it has."""
    _, form = avoided(stated.content(f"{kit.TOP}/{LIST}"))
    counts = {}
    for path in paths():
        try:
            count = len(form.findall(texts(path, stated.content(f"{kit.TOP}/{path}"))))
        except UnicodeDecodeError:
            continue
        if count:
            counts[path] = count
    return counts
