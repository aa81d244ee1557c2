"""The definitions that a contract reaches, in the crates of the desk.

A contract names definitions, and these name others. Each has a home, which is a crate and a file: `Balance` is
`specs/Balance.antt`, and `order.rt` is `src/order.rt`. Of the code count types, traits and constants. A type counts
with what contracts see of it: the value and the view of its `Model` and those fields that the view names, or all of its
fields where it has no model; with its constants; and with what it sets the ghost members of the desk's traits to. A
trait counts with its ghost members. What is proved of them is not followed: clauses of functions, invariants, and ghost
fields. Nor is what the kit's crates define.

A name that is brought in from a crate of the desk, and is not found there, is an error. Names are told apart by their
spelling: a bound variable that is called as a definition counts as one.
"""
import functools
import os
import re

import kit

CRATES = f"{kit.TOP}/crates"
NAME = r"[^\s(){}\[\],;.`]+"
PATH = re.compile(rf"{NAME}(?:\.{NAME})*")
DEFINED = re.compile(rf"^(?:pub |abbrev |unfoldable |record |data )*({NAME})(?= |:|$)")
DATA = re.compile(r"^(?:pub )?data ")
# the head of a module that has parameters, which its definitions take too
HEAD = re.compile(r"^ *module\b[^\n]*?(?:\n +[^\n]*?)*?\bwhere$", re.M)
VARIANT = re.compile(rf"^ +pub ({NAME}) :")
USED = re.compile(r"^(?:pub )?use Rattle\.(\w+(?:\.[^\s.{};]+)*)(?:\.\{([^}]*)\})?(?: as ([^\s;]+))?", re.M)
TYPE = re.compile(r"\b[A-Z]\w*")
RUST_USED = re.compile(r"^(?:pub(?:\([^)]*\))? )?use ([^;]+);", re.M)
ITEM = re.compile(r"^(?:pub(?:\([^)]*\))? )?(struct|enum|trait|type|const|static) (\w+)", re.M)
IMPL = re.compile(r"^impl\b(.*?)\{$(.*?)^\}", re.M | re.S)
FIELD = re.compile(r"^ +(?:pub(?:\([^)]*\))? )?(\w+): (.*),$", re.M)
GHOST_FIELD = re.compile(r"^ +ghost \w+:.*?\},$", re.M | re.S)
MEMBER = re.compile(r"^ +ghost (\w+)[^=;]*?(?::|=) \{.*?\};$", re.M | re.S)
AS_TRAIT = re.compile(r"<(\w+)(?:<[^()]*?>)? as (\w+)>")
CONSTANT = re.compile(r"^ +pub const \w+:.*?;$", re.M | re.S)


class Missing(ValueError):
    """A name that is brought in from a crate of the desk, and is not found there."""


def is_ours(crate):
    """Returns whether a crate is one of the desk's."""
    return os.path.isdir(f"{CRATES}/{crate}")


def names_in(listed):
    """Yields each name of a `use` line's braces as it is called there, and as it is called here."""
    for it in (it.strip() for it in listed.split(",")):
        if it:
            name, _, here = it.partition(" as ")
            yield name.strip(), (here or name).strip()


def imports(text):
    """Returns what the `use` lines of a text bring in from the desk's crates: for each name the crate, the path below
    it, and the name there, which is none where the line brings in a file or a type as a whole."""
    found = {}
    for path, listed, alias in USED.findall(text):
        crate, _, below = path.partition(".")
        if not is_ours(crate):
            continue
        if not listed:
            found[alias or below.rpartition(".")[2]] = (crate, below, None)
        for name, here in names_in(listed):
            found[here] = (crate, below, name)
    return found


class Definitions:
    """A file of definitions: the text of each, the one to which each of its names belongs, and what it brings in."""

    def __init__(self, home):
        self.home = home
        text = re.sub(r"--[^\n]*", "", read(path_of(home)))
        self.names, self.texts, self.owners = imports(text), {}, {}
        text = HEAD.sub(lambda it: it[0].replace("\n", " "), USED.sub("", text))
        self.take([it for it in text.splitlines() if it.strip()])

    def take(self, lines):
        """Takes each line to the definition to which it belongs. One that stands in a module begins with its head."""
        heads, name, is_data = [], None, False
        for line in lines:
            bare = line.lstrip(" ")
            depth = len(line) - len(bare)
            heads = [it for it in heads if it[0] < depth]
            if bare.startswith("module "):
                heads.append((depth, f"{bare}\n"))
                continue
            found = DEFINED.match(bare) if depth == 2 * len(heads) else None
            name, is_data = (found[1], bool(DATA.match(bare))) if found else (name, is_data)
            if name:
                self.texts[name] = f"{self.texts.get(name) or ''.join(it[1] for it in heads)}{line}\n"
                variant = is_data and VARIANT.match(line)
                self.owners.update({name: name, **({variant[1]: name} if variant else {})})

    def named(self, text):
        """Yields the places that a text of this file names."""
        for word in PATH.findall(text):
            head, _, rest = word.partition(".")
            if head in self.owners:
                yield self.home, self.owners[head]
            elif head in self.names:
                yield from passed_on(self.names[head], rest.partition(".")[0])

    def judged(self):
        """Returns how many lines a reader has to judge: of a file of definitions all."""
        return read(path_of(self.home)).count("\n")


def passed_on(place, below):
    """Yields where a name is found that a line brings in, or one below it where the line brings in a whole file."""
    crate, path, name = place
    if name or below:
        yield found_at(crate, path, name or below)


class Code:
    """A file of the code: the text of each type, trait and constant as contracts see it, and what the file brings
    in."""

    def __init__(self, home):
        self.home = home
        text = re.sub(r" *//[^\n]*", "", read(path_of(home)))
        self.names = imports(re.sub(r"^ *ghost ", "", text, flags=re.M))
        self.used = {here: path for tree in RUST_USED.findall(text) for path, here in rust_paths(tree)}
        self.texts, self.items = {}, {it[2]: (it[1], item_at(text, it)) for it in ITEM.finditer(text)}
        self.impls = [(*header_of(header), body) for header, body in IMPL.findall(text)]
        for name, (kind, item) in self.items.items():
            self.texts[name] = self.seen(name, kind, item)
        for trait, of, body in self.impls:
            if trait and members(body):
                self.texts[f"{of} as {trait}"] = members(body)

    def seen(self, name, kind, item):
        """Returns what contracts see of a type, a trait or a constant."""
        if kind == "trait":
            return members(item)
        parts = [GHOST_FIELD.sub("", item)]
        for trait, of, body in self.impls:
            if of != name:
                continue
            if trait == "Model":
                model = members(body, ("Value", "view"))
                fields = [f"{field}: {kind}" for field, kind in FIELD.findall(item) if f".{field}" in model]
                parts[:1] = [item.partition("\n")[0], *fields, model]
            elif trait is None:
                parts += CONSTANT.findall(body)
        return "".join(f"{it.strip()}\n" for it in parts if it.strip())

    def place(self, name):
        """Returns where a name of the code is defined, or none where it is no name of the desk's crates."""
        if name in self.items:
            return self.home, name
        path = self.used.get(name)
        if not path:
            return None
        crate, modules = self.start(path[:-1])
        return in_code(crate, modules, path[-1]) if crate else None

    def start(self, path):
        """Returns the crate and the modules that a path begins with, or none where the crate is none of the desk's."""
        crate, file = self.home
        here = [it for it in file.removesuffix(".rt").split("/") if it != "lib"]
        if path[:1] == ["crate"]:
            return crate, path[1:]
        if path[:1] == ["super"]:
            return crate, here[:-1] + path[1:]
        if path and is_ours(path[0]):
            return path[0], path[1:]
        below = here + path
        return (crate, below) if path and os.path.exists(path_of((crate, f"{'/'.join(below)}.rt"))) else (None, None)

    def named(self, text):
        """Yields the places that a text of this file names."""
        for word in PATH.findall(text):
            head, _, rest = word.partition(".")
            if head in self.names:
                yield from passed_on(self.names[head], rest.partition(".")[0])
        for word in TYPE.findall(text):
            found = None if word in self.names else self.place(word)
            if found:
                yield found
        for of, trait in AS_TRAIT.findall(text):
            home, name = self.place(of) or (None, None)
            if home and f"{name} as {trait}" in source(home).texts:
                yield home, f"{name} as {trait}"

    def judged(self, names):
        """Returns how many lines a reader has to judge: those of what is named."""
        return sum(self.texts[it].count("\n") for it in names)


def members(text, names=None):
    """Returns the ghost members of a trait or an impl, all or those with these names."""
    return "".join(f"{it[0]}\n" for it in MEMBER.finditer(text) if names is None or it[1] in names)


def item_at(text, found):
    """Returns the text of an item that begins here."""
    rest = text[found.start():]
    is_block = found[1] not in ("const", "static", "type") and re.match(r"[^;{]*\{", rest)
    return rest[:rest.index("\n}" if is_block else ";\n") + 2]


def header_of(header):
    """Returns the trait of an impl, or none, and its type."""
    depth, begin = 0, 0
    for at, it in enumerate(header):
        depth += {"<": 1, ">": -1}.get(it, 0)
        if it.strip() and depth == 0:
            begin = at + (it == ">")
            break
    first, is_for, last = header[begin:].partition(" for ")
    names = [re.match(r"[\w:&' ]*?(\w+)\s*(?:[<({]|where|$)", it.strip()) for it in (first, last)]
    found = [it[1] if it else "" for it in names]
    return (found[0], found[1]) if is_for else (None, found[0])


def rust_paths(tree):
    """Yields each path of a Rust `use`, and what it is called here."""
    while "{" in tree:
        tree = re.sub(r"([\w:]*)\{([^{}]*)\}",
                      lambda it: ", ".join(f"{it[1]}{one.strip()}" for one in it[2].split(",") if one.strip()), tree)
    for name, here in names_in(tree):
        path = [it for it in name.split("::") if it != "self"]
        yield path, here.rpartition("::")[2] if here == name else here


def read(path):
    """Returns the text of a file."""
    with open(path, encoding="utf-8") as file:
        return file.read()


def path_of(home):
    """Returns the path of a home."""
    crate, file = home
    if file.endswith(".rt"):
        return f"{CRATES}/{crate}/src/{file}"
    return f"{CRATES}/{crate}/specs/{file.replace('.', '/')}.antt"


@functools.lru_cache(maxsize=None)
def source(home):
    """Returns a file of definitions or of the code, or none where there is no such file."""
    if not os.path.exists(path_of(home)):
        return None
    return Code(home) if home[1].endswith(".rt") else Definitions(home)


def found_at(crate, path, name):
    """Returns where a name is defined that is brought in from this path below a crate, which may have passed it on."""
    kind, _, file = path.partition(".")
    if kind == "specs" and file.startswith("declared."):
        return declared(crate, file.split(".")[1:], name)
    it = source((crate, file)) if kind == "specs" else None
    if it and name in it.owners:
        return it.home, it.owners[name]
    if it and name in it.names:
        return next(passed_on(it.names[name], name), None)
    # a file that another one passes on
    above, _, last = file.rpartition(".")
    lib = source((crate, above or "Lib")) if kind == "specs" and not it else None
    if lib and last in lib.names:
        other, below, _ = lib.names[last]
        return found_at(other, below, name)
    raise Missing(f"{name} is not found in {path} of {crate}")


def declared(crate, path, name):
    """Returns where a type or a constant of the code is defined that definitions name."""
    modules = [it for it in path if it[0].islower()]
    of = path[len(modules):]
    is_constant = of[:1] == ["TheConstants"]
    of = of[1:] if is_constant else of
    return in_code(crate, modules, of[0] if of else name)


def in_code(crate, modules, name):
    """Returns where a name of the code is defined, also where a module passed it on, or none where it is a function."""
    it = source((crate, f"{'/'.join(modules) or 'lib'}.rt"))
    found = it.place(name) if it else None
    if not found and name[0].isupper():
        raise Missing(f"{name} is not found in {'::'.join(modules) or 'the root'} of {crate}")
    return found


def reached(text, it):
    """Returns the places that a text of a file reaches: first those of the file's own crate, then what it names, and
    then what these name."""
    found = sorted(dict.fromkeys(it.named(text)), key=lambda one: one[0][0] != it.home[0])
    known = set(found)
    for home, name in found:
        here = source(home)
        more = [one for one in dict.fromkeys(here.named(here.texts[name])) if one not in known]
        known.update(more)
        found += more
    return found


def lines_of(found):
    """Returns for each home of these places how many lines a reader has to judge."""
    homes = {}
    for home, name in found:
        homes.setdefault(home, []).append(name)
    return {home: source(home).judged(names) if home[1].endswith(".rt") else source(home).judged()
            for home, names in homes.items()}
