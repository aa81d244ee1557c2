"""The crates of a commit: git's name of the folder of each, and its line of crates.txt: what it stands on."""
import typing

from lib import evidence


class Crate(typing.NamedTuple):
    """A crate as a commit has it: git's name of its folder, and its line of crates.txt."""

    folder: str
    line: str

    def below(self):
        """Returns the names of what it stands on, those of the kit too."""
        return self.line.partition(":")[2].split()


def of_commit(commit):
    """Returns the crates of a commit by their names, or nothing where git does not have it."""
    folders, text = evidence.git("ls-tree", f"{commit}:crates"), evidence.git("show", f"{commit}:crates.txt")
    if folders is None or text is None:
        return None
    names = {name: words.split()[2] for words, _, name in (it.partition("\t") for it in folders.splitlines())}
    return {name: Crate(names.get(name, ""), line) for name, line in named(text).items()}


def named(text):
    """Returns the lines of a text of crates.txt, by the names of the crates."""
    lines = [" ".join(it.partition("#")[0].split()) for it in text.splitlines()]
    return {it.partition(":")[0].split()[0]: it for it in lines if it}


def of_tree(tree):
    """Returns the crates of a tree that names its commit. Where git has that one no more, since commits were joined,
    another one with the same crates will do. Returns nothing where there is none."""
    commits = (evidence.git("log", "--all", "--format=%H", "--", "crates") or "").split()
    for it in (tree.commit, *commits):
        if (evidence.git("rev-parse", "--verify", "-q", f"{it}:crates") or "").startswith(tree.crates):
            return of_commit(it)
    return None


def with_below(name, crates):
    """Returns the names of a crate and of all that stand below it, those of the kit too."""
    found, left = set(), [name]
    while left:
        it = left.pop()
        if it not in found:
            found.add(it)
            left += crates[it].below() if it in crates else []
    return found


def are_alike(name, some, others):
    """Returns whether a crate, and each one below it, is the same among both."""
    return name in some and all(some.get(it) == others.get(it) for it in with_below(name, some))
