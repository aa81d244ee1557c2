"""What became of the contracts of a tree: which clauses of its public functions another tree has not, or otherwise.

A function is known again by the name that other crates call, or, where a crate has no such name any more, by the end of
its name in the same crate. A clause is known by its text, or else by its name.
"""
import collections
import difflib

from lib import contracts, definitions

SHOWN = 4


class Change:
    """What became of the clauses of one function."""

    def __init__(self, name, old, new):
        self.name, self.old, self.new = name, old, new
        self.lost, self.added, self.changed = clauses_between(old.clauses if old else [], new.clauses if new else [])

    def is_bad(self):
        """Returns whether a function is gone, lost or changed a clause, or asks for more than it did."""
        asks = bool(self.old) and any("requires" in it.kind for it in self.added)
        return bool(self.old and not self.new or self.lost or self.changed or asks)

    def is_any(self):
        """Returns whether anything is otherwise."""
        return not self.old or not self.new or self.is_bad() or bool(self.added) or self.old.head != self.new.head

    def lines(self):
        """Yields what is told of it."""
        what = "gone" if not self.new else "new" if not self.old else "lost or changed" if self.is_bad() else "gained"
        if self.old and self.new and not (self.is_bad() or self.added):
            what = "other head"
        yield f"{what}: {self.name}"
        if self.old and self.new and self.old.title != self.new.title:
            yield f"    was called: {self.old.title}"
        if self.old and self.new and self.old.head != self.new.head:
            yield from (f"    head was: {self.old.head}", f"    head is:  {self.new.head}")
        yield from (f"    lost {told(it)}" for it in self.lost)
        for before, after in self.changed:
            yield from (f"    was {told(before)}", f"    is  {told(after)}")
        yield from (f"    added {told(it)}" for it in self.added)


def told(clause):
    """Returns a clause in a line."""
    return f"{clause.kind} {clause.name}: {clause.text}"


def clauses_between(old, new):
    """Returns the clauses that are lost, those that are added, and pairs of those that are otherwise."""
    lost, added, changed = list(old), list(new), []
    for is_same in (lambda it, other: it.name == other.name and it.text == other.text,
                    lambda it, other: it.text == other.text,
                    lambda it, other: it.name == other.name):
        for it in list(lost):
            other = next((other for other in added if it.kind == other.kind and is_same(it, other)), None)
            if other:
                lost.remove(it)
                added.remove(other)
                changed += [(it, other)] if it.text != other.text else []
    return lost, added, changed


def known(crates):
    """Returns what is listed of crates, by the crate and the name; of those with one name, by their heads too."""
    entries = [(crate.name, it) for crate, its in crates.items() for it in its]
    count = collections.Counter((crate, it.title) for crate, it in entries)
    found = {}
    for crate, it in entries:
        key = (crate, it.title) if count[crate, it.title] == 1 else (crate, f"{it.title}, {it.head}")
        while key in found:
            key = (crate, f"{key[1]}, another")
        found[key] = it
    return found


def end_of(key):
    """Returns by what a function that moved within its crate is known again."""
    crate, title = key
    steps = title.split("::")
    return crate, "::".join(steps[-2:]) if steps[-2:-1] and steps[-2][:1].isupper() else steps[-1]


def pairs(old, new):
    """Yields what is listed in both trees under one name, or in one crate after a move; or in one of the two alone."""
    gone, fresh = [it for it in old if it not in new], [it for it in new if it not in old]
    for key in (it for it in old if it in new):
        yield key[1], old[key], new[key]
    ends = collections.Counter(map(end_of, fresh)), collections.Counter(map(end_of, gone))
    moved = {end_of(it): it for it in fresh if ends[0][end_of(it)] == ends[1][end_of(it)] == 1}
    for key in gone:
        at = moved.get(end_of(key))
        yield (at or key)[1], old[key], new[at] if at else None
    for key in (it for it in fresh if it not in moved.values()):
        yield key[1], None, new[key]


def leading_elsewhere(places, now, old, new):
    """Yields which of these places have a definition that is otherwise in the new tree, and where their names lead now.
    A definition that is no longer named is the same if its text is: what named it is otherwise then."""
    texts = {(name, new.text((file, name))) for file, name in now}
    for file, name in places:
        homes = [home for home, other in now if other == name]
        is_same = (name, old.text((file, name))) in texts if homes else old.text((file, name)) == new.text((file, name))
        if not is_same:
            yield (file, name), (file if file in homes or not homes else homes[0], name)


def definitions_between(changes, old, new):
    """Returns the definitions that clauses of the old tree name, or that these name in turn, and that are otherwise in
    the new one: the place of each, and where its name leads now, with the functions whose clauses lead to it."""
    found = collections.defaultdict(list)
    for it in (it for it in changes if it.old and it.new):
        gone = [*it.lost, *(before for before, _ in it.changed)]
        kept = " ".join(clause.text for clause in it.old.clauses if clause not in gone)
        places, now = old.reached(it.old.file, kept), new.reached(it.new.file, kept)
        rest = old.reached(it.old.file, " ".join(clause.text for clause in gone)) - places
        for both in [*leading_elsewhere(places, now, old, new), *leading_elsewhere(rest, (), old, new)]:
            found[both].append(it.name)
    return found


def lines_of_definition(places, names, old, new):
    """Yields how a definition changed, and whose clauses lead to it."""
    place, now = places
    before, after = old.text(place), new.text(now)
    yield f"{'gone' if after is None else 'changed'}: {place[1]} ({place[0]})"
    yield from [f"    its name leads now to {now[0]}"] if now != place else []
    more = f", and {len(names) - SHOWN} more" if len(names) > SHOWN else ""
    yield f"    clauses of {', '.join(sorted(names)[:SHOWN])}{more}"
    lines = difflib.unified_diff(before.splitlines(), (after or "").splitlines(), n=1, lineterm="")
    yield from (f"    {it}" for it in list(lines)[3:])


def compare(old_top, new_top):
    """Yields the lines of a comparison. The last thing that it gives is whether nothing was lost, changed or asked."""
    old, new = contracts.listed(old_top), contracts.listed(new_top)
    changes = [Change(*it) for it in pairs(known(old), known(new))]
    trees = definitions.Definitions(old_top), definitions.Definitions(new_top)
    bad, rest = [it for it in changes if it.is_bad()], [it for it in changes if it.is_any() and not it.is_bad()]
    yield f"# Functions that lost or changed a clause, are gone, or ask for more: {len(bad)}"
    yield from (line for it in bad for line in it.lines())
    yield f"# New functions, and those that gained a clause or have another head: {len(rest)}"
    yield from (line for it in rest for line in it.lines())
    found = definitions_between(changes, *trees)
    yield f"# Definitions that clauses lead to and that changed, to be judged by reading: {len(found)}"
    yield from (line for it in sorted(found) for line in lines_of_definition(it, found[it], *trees))
    yield not bad
