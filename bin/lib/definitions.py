"""The definitions of a tree's `specs/`, and the types and constants of its code, by the names that contracts use.

A name is followed as the imports (`use`) of its file say. Names of the kit's own crates lead nowhere here.
"""
import collections
import glob
import os
import re

USE = re.compile(r"\buse (Rattle(?:\.\w+)+)(?:\.\{([^}]*)\}| as (\w+))?")
# what passes a file of another crate on, under the name of a file of its own
PASSED_ON = r"^pub use (Rattle(?:\.\w+)+\.{})$"
# the lines at the left margin that define nothing
LEFT_OUT = re.compile(r"^(?:(?:pub )?(?:use|mod)|unfolding) .*$", re.M)
# the words before the name of a definition
BEFORE = {"pub", "abbrev", "unfoldable", "record", "data", "opaque"}
ITEM = re.compile(r"^(?:pub(?:\([^)]*\))? )?(struct|enum|const|type) (\w+)", re.M)
MEMBER = re.compile(r"^    pub const (\w+)", re.M)


def content(path):
    """Returns the text of a file."""
    with open(path, encoding="utf-8") as file:
        return file.read()


def words_of(text):
    """Returns the words of a text by which it may name definitions."""
    return set(re.split(r"[\s(){},;.]+", text))


def parts_of(text):
    """Yields the parts of a text of definitions, each of which begins at the left margin. Of a module it yields those
    inside, each with what the module says of its parameters below it."""
    for part in re.split(r"\n(?=[^\s})])", text):
        if not part.startswith("module "):
            yield part
            continue
        head, _, inside = part.partition(" where\n")
        lines = inside.splitlines()
        margin = min((len(it) - len(it.lstrip()) for it in lines), default=0)
        yield from (f"{it}\n{head}" for it in parts_of("\n".join(it[margin:] for it in lines)))


def defined(text):
    """Returns the text of each definition of a file of `specs/`, without comments, by its name."""
    bare = "\n".join(it.rstrip() for it in re.sub(r"(^|\s)--.*", "", text).splitlines() if it.strip())
    found = collections.defaultdict(list)
    for part in parts_of(LEFT_OUT.sub("", bare).strip("\n")):
        words = [it for it in part.split() if it not in BEFORE]
        if words:
            found[words[0]].append(part.strip("\n"))
    return {name: "\n".join(parts) for name, parts in found.items()}


def declared(text):
    """Returns the text of each type and constant of a file of code, without comments, by its name."""
    bare, found = re.sub(r" *//.*", "", text), {}
    for it in ITEM.finditer(bare):
        end = re.compile(r";|^\}", re.M).search(bare, it.end())
        found[it[2]] = bare[it.start() : end.end()] if end else bare[it.start() :]
    for it in MEMBER.finditer(bare):
        found[it[1]] = bare[it.start() : bare.index(";", it.end()) + 1].strip()
    return found


class File:
    """What a file of definitions or of code has, and what it imports: names, and names for other files."""

    def __init__(self, top, path):
        text = content(path)
        self.has = declared(text) if path.endswith(".rt") else defined(text)
        self.names, self.files = {}, {}
        for told, names, other in USE.findall(re.sub(r"^\s*(?://|--).*$", "", text, flags=re.M)):
            home, rest = home_of(top, told)
            if not home:
                continue
            if other:
                self.files[other] = home
            for name in [*rest, *(it.split(" as ")[0].strip() for it in names.split(","))]:
                # (a variant leads to its type)
                self.names[name.strip("◌")] = [(home, it) for it in [name, *rest]]


def home_of(top, told):
    """Returns the file to which an import leads, relative to the tree, and the rest of its path. None is of the kit."""
    _, crate, kind, *steps = told.split(".")
    root, end = f"crates/{crate}/{kind}", ".antt"
    if steps[:1] == ["declared"]:
        root, end, steps = f"crates/{crate}/src", ".rt", steps[1:]
    for count in range(len(steps), 0, -1):
        path = f"{root}/{'/'.join(steps[:count])}{end}"
        if os.path.exists(f"{top}/{path}"):
            return path, steps[count:]
    if os.path.exists(f"{top}/{root}/lib.rt"):
        return f"{root}/lib.rt", steps
    passing = f"{top}/{root}/Lib.antt"
    passed = re.search(PASSED_ON.format(".".join(steps)), content(passing), re.M) if os.path.exists(passing) else None
    return home_of(top, passed[1]) if passed else (None, [])


class Definitions:
    """The definitions of a tree."""

    def __init__(self, top):
        self.top, self.files, self.inner = top, {}, {}
        for kind in ("specs/**/*.antt", "src/**/*.rt"):
            for path in glob.glob(f"{top}/crates/*/{kind}", recursive=True):
                self.files[os.path.relpath(path, top)] = File(top, path)

    def text(self, place):
        """Returns the text of the definition at a place, a file and a name; of one that moved within its crate too."""
        file, name = place
        crate = "/".join(file.split("/")[:2]) + "/"
        if file in self.files and name in self.files[file].has:
            return self.files[file].has[name]
        others = [it.has[name] for path, it in self.files.items() if path.startswith(crate) and name in it.has]
        return others[0] if len(others) == 1 else None

    def home(self, places, seen=()):
        """Returns the first of these places that has a definition, where need be by what its file passes on."""
        for file, name in places:
            it = self.files[file]
            if name in it.has:
                return file, name
            if name in it.names and (file, name) not in seen:
                return self.home(it.names[name], (*seen, (file, name)))
        return None

    def named(self, file, text):
        """Returns the places of the definitions that a text of a file of the tree names."""
        words, it = words_of(text), self.files[file]
        places = [[(file, word)] for word in words & set(it.has)] + [it.names[word] for word in words & set(it.names)]
        for word in words & set(it.files):
            home = it.files[word]
            names = set(re.findall(rf"(?<!\w){word}\.([^\s(){{}},;.]+)", text))
            places += [[(home, name)] for name in names & {*self.files[home].has, *self.files[home].names}]
        return {place for place in map(self.home, places) if place}

    def named_by(self, place):
        """Returns the places of the definitions that a definition names."""
        if place not in self.inner:
            self.inner[place] = self.named(place[0], self.files[place[0]].has[place[1]])
        return self.inner[place]

    def reached(self, path, text):
        """Returns the places of all definitions that a text of a file names, and that these name in turn."""
        found, left = set(), [*self.named(os.path.relpath(path, self.top), text)]
        while left:
            place = left.pop()
            if place not in found:
                found.add(place)
                left += self.named_by(place)
        return found
