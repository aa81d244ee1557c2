"""The contract of each public function of the desk's crates, as the code of a tree states it.

It has what is written `pub fn`, the methods of public traits, and what implementations of traits say of public types.
Crates of tests are left out. `agree` counts functions, clauses and terms a second, plainer way, by lines.
"""
import functools
import glob
import os
import re

import kit

FILE = f"{kit.TOP}/out/CONTRACTS.md"
LEFT_OUT = re.compile(r".*_trials|rtgs_tests_desks")
HEAD = """# Contracts

What each public function promises, crate by crate, from the lowest up. `bin/contracts` made this file from the code.
docs/GUARANTEES.md says what follows from all this, and how the terms are meant.

Under each function stand its head, what its comment says, and its clauses, one in a line: `requires` is what the caller
has to meet, `ensures` what the prover has shown of each call, with the clause's name (`-` if it has none) and its text.
A text cites definitions and records by their names, and these stand in the `specs/` of the crates; the fields of a
record are clauses too. A comment that stands above a clause follows its text. What says `ghost` is there for contracts
alone: of a trait its law, or a term that each implementation defines; of an implementation that definition. `ensures*`
marks a clause about what a borrower leaves. A function without clauses still is safe and returns, as each one does.
"""


def folded(text):
    """Returns the text with each run of white space as one space."""
    return " ".join(text.split())


class Code:
    """The text of a file, and the same with comments and quoted texts blanked, so that its braces can be counted."""

    # (a lifetime, such as 'a, has no quote behind it)
    QUOTED = re.compile(r'//[^\n]*|r#"(?s:.*?)"#|"(?s:\\.|[^"\\])*"|\'(?:\\.[^\']*|[^\'\\\n])\'')
    PAIRS = {"{": "}", "(": ")", "[": "]"}

    def __init__(self, path):
        with open(path, encoding="utf-8") as file:
            self.text = file.read()
        self.bare = self.QUOTED.sub(lambda it: re.sub(r"[^\n]", " ", it.group()), self.text)

    def end_of(self, at):
        """Returns the place behind the bracket that closes the one at this place."""
        open_, depth = self.bare[at], 0
        for it in re.compile(f"[{re.escape(open_ + self.PAIRS[open_])}]").finditer(self.bare, at):
            depth += 1 if it.group() == open_ else -1
            if not depth:
                return it.end()
        raise ValueError(f"a bracket has no end: {self.text[at:at + 60]}")

    def next_of(self, pattern, at):
        """Returns the next match that stands in no parentheses, and in no brackets, from this place on."""
        for it in re.compile(rf"[(\[]|{pattern}").finditer(self.bare, at):
            if it.start() < at:
                continue
            if it.group() not in ("(", "["):
                return it
            at = self.end_of(it.start())
        raise ValueError(f"nothing follows: {self.text[at:at + 60]}")

    def within(self, start, end):
        """Returns the text between two places, without its comments."""
        return "\n".join(it.split("//")[0] for it in self.text[start:end].splitlines())

    def said_above(self, at, mark):
        """Returns the comments with this mark that stand right above the line of a place, attributes aside."""
        said = []
        for line in reversed(self.text[: self.text.rfind("\n", 0, at) + 1].splitlines()):
            bare = line.strip()
            if re.match(rf"{mark}(?!/)", bare):
                said.insert(0, bare[len(mark) :].strip())
            elif not bare.startswith("#["):
                break
        return folded(" ".join(said))


class Clause:
    """A clause of a function, or a term that contracts use."""

    def __init__(self, kind, name, text, comment):
        self.kind, self.name, self.text, self.comment = kind, name or "-", folded(text), comment

    def told(self):
        """Returns its line."""
        quoted = f"`{self.text}`" if "`" not in self.text else f"`` {self.text} ``"
        return f"- {self.kind} {self.name}: {quoted}{' (' + self.comment + ')' if self.comment else ''}"


class Function:
    """A function, with its clauses, the place where its body begins, and the one behind it, where it ends."""

    START = re.compile(r"^ *((?:(pub(?:\([^)]*\))?) )?(?:final )?fn (\w+))", re.M)
    CLAUSE = re.compile(r"\s*((?:ghost\s+)?(?:requires|ensures)\b\*?)\s*(\w*)\s*\{")
    BODY = re.compile(r"\s*([{;])")

    def __init__(self, code, found):
        self.start, self.is_public, self.name = found.start(1), found.group(2) == "pub", found.group(3)
        self.said = code.said_above(self.start, "///")
        head = code.next_of(r"\b(?:ghost|requires|ensures)\b|[{;]", found.end())
        self.head = re.sub(r",? \)", ")", folded(code.within(self.start, head.start())).replace("( ", "("))
        self.clauses, at = [], head.start()
        while clause := self.CLAUSE.match(code.bare, at):
            at = code.end_of(clause.end() - 1)
            text, said = code.within(clause.end(), at - 1), code.said_above(clause.start(1), "//")
            self.clauses.append(Clause(folded(clause.group(1)), clause.group(2), text, said))
        body = self.BODY.match(code.bare, at)
        if not body:
            raise ValueError(f"{self.name} has neither a clause nor a body: {code.text[at:at + 60]}")
        self.body, self.end = body.start(1), body.end() if body.group(1) == ";" else code.end_of(body.start(1))


class Block:
    """A trait, or an implementation of a type, or of a trait for a type: its terms for contracts, and its functions."""

    START = re.compile(r"^((pub(?:\([^)]*\))? )?(trait|impl)\b)", re.M)
    TERM = re.compile(r"^    (ghost) (?!use\b)(\w+)[ =:]*\{", re.M)
    ARGUMENTS = re.compile(r"(?<!-)<(?:[^<>]|<(?:[^<>]|<[^<>]*>)*>)*>")

    def __init__(self, code, found):
        self.start, brace = found.start(1), code.next_of(r"\{", found.end())
        self.end, self.is_trait = code.end_of(brace.start()), found.group(3) == "trait"
        self.head = folded(code.text[self.start : brace.start()])
        self.said = code.said_above(self.start, "///")
        # without what stands in <..>, and without the traits that a trait asks for
        plain = self.ARGUMENTS.sub("", self.head[len(found.group()) :]).strip()
        self.trait, _, type_ = plain.rpartition(" for ")
        self.type = re.sub(r"(?<!:):(?!:).*", "", type_).rpartition("::")[2]
        self.functions, self.terms = [], []
        for it in self.TERM.finditer(code.bare, brace.end(), self.end):
            text, said = code.within(it.end(), code.end_of(it.end() - 1) - 1), code.said_above(it.start(1), "//")
            self.terms.append(Clause(it.group(1), it.group(2), text, said))


class Module:
    """A file of a crate: its functions, traits and implementations."""

    TYPE = re.compile(r"^(pub(?:\([^)]*\))? )?(?:struct|enum|type|trait|fn|const) (\w+)", re.M)

    def __init__(self, root, path):
        within, self.file = os.path.relpath(path, root)[: -len(".rt")], path
        self.path, self.code = () if within in ("lib", "main") else tuple(within.split("/")), Code(path)
        self.items = {it.group(2): it.group(1) == "pub " for it in self.TYPE.finditer(self.code.bare)}
        self.blocks = [Block(self.code, it) for it in Block.START.finditer(self.code.bare)]
        self.functions, self.all, at = [], [], 0
        while found := Function.START.search(self.code.bare, at):
            function = Function(self.code, found)
            within = [it for it in self.blocks if it.start < function.start < it.end]
            (within[0] if within else self).functions.append(function)
            self.all.append(function)
            at = function.end


class Entry:
    """What the list says of a function, of a trait, or of its implementation for a type; and the file of its code."""

    def __init__(self, title, head, said, clauses, file):
        self.title, self.head, self.said, self.clauses, self.file = title, head, said, clauses, file

    def lines(self):
        """Yields its lines."""
        yield f"\n### `{self.title}`\n"
        yield from [f"`{self.head}`\n"] if self.head else []
        yield from [f"{self.said}\n"] if self.said else []
        yield from [it.told() for it in self.clauses] or ["No clauses."]


class Crate:
    """A crate's modules, and the names by which other crates reach what is in them."""

    def __init__(self, top, name):
        root = f"{top}/crates/{name}/src"
        self.name, self.is_program = name, not os.path.exists(f"{root}/lib.rt")
        self.files = [it for it in sorted(glob.glob(f"{root}/**/*.rt", recursive=True)) if not is_test(root, it)]
        self.modules = {it.path: it for it in (Module(root, file) for file in self.files)}
        self.said = folded(" ".join(re.findall(r"^//! ?(.*)$", self.modules[()].code.text, re.M)))
        self.names = {}
        self.reach((), name)

    def reach(self, path, told):
        """Notes by which names the items of a module that is public are reached, and those that it passes on."""
        module = self.modules[path]
        for name in (it for it, is_public in module.items.items() if is_public):
            self.names.setdefault((path, name), f"{told}::{name}")
        for used in re.findall(r"^pub use ([^;]*);", module.code.bare, re.M):
            stem, _, names = "".join(used.split()).rstrip("}").rpartition("{" if "{" in used else "::")
            steps = tuple(it for it in stem.split("::") if it)
            steps = steps[1:] if steps[:1] == ("crate",) else path + steps
            for it in names.split(",") if steps in self.modules else ():
                if re.search(rf"^pub mod {it};", self.modules[steps].code.bare, re.M):
                    self.reach((*steps, it), f"{told}::{it}")
                elif it:
                    self.names.setdefault(self.home(steps, it), f"{told}::{it}")
        for name in re.findall(r"^pub mod (\w+);", module.code.bare, re.M):
            self.reach((*path, name), f"{told}::{name}")

    def home(self, path, name):
        """Returns where an item stands that a module has or passes on, and its name."""
        for used in re.findall(r"^pub use crate::([^;]*);", self.modules[path].code.bare, re.M):
            stem, _, names = "".join(used.split()).rstrip("}").rpartition("{" if "{" in used else "::")
            steps = tuple(it for it in stem.split("::") if it)
            if name in names.split(",") and steps in self.modules:
                return self.home(steps, name)
        return path, name

    def told_of(self, module, name):
        """Returns the name of an item that the module has, or another of the crate, and whether other crates reach it.
        There is none of an item of other crates."""
        homes = [it for it in self.modules.values() if name in it.items]
        if not homes:
            return None, False
        home = (module if module in homes else homes[0]).path
        is_reached = (home, name) in self.names
        return self.names.get((home, name)) or "::".join((self.name, *home, name)), is_reached

    def entries(self):
        """Yields what the list says of the crate."""
        for module in self.modules.values():
            for it in (it for it in module.functions if it.is_public):
                yield entry_of(module, it, *self.told_of(module, it.name))
            for block in module.blocks:
                yield from self.entries_of(module, block)

    def entries_of(self, module, block):
        """Yields what the list says of a trait or an implementation."""
        told, is_reached = self.told_of(module, block.type)
        if not block.trait and not block.is_trait:
            for it in (it for it in block.functions if it.is_public):
                yield entry_of(module, it, f"{told}::{it.name}", is_reached)
            return
        if not block.is_trait and not (is_reached or (told is None and self.told_of(module, block.trait)[1])):
            return
        if block.is_trait and not is_reached:
            return
        functions = [it for it in block.functions if it.clauses or block.is_trait]
        if block.terms or functions or block.is_trait:
            title, head = (told, block.head) if block.is_trait else (block.head, "")
            yield Entry(title, head, block.said, block.terms, module.file)
        for it in functions:
            yield entry_of(module, it, f"{told or block.type}::{it.name}", True)


def entry_of(module, function, title, is_reached):
    """Returns what the list says of a function."""
    said = f"{function.said}{'' if is_reached else ' (Its crate alone calls it.)'}"
    return Entry(title, function.head, said.strip(), function.clauses, module.file)


def is_test(root, path):
    """Returns whether a file has tests."""
    return re.match(r"tests(\.rt|/)", os.path.relpath(path, root)) is not None


def lines_of(crate, entries):
    """Yields the lines of a crate."""
    yield f"\n## {crate.name}\n\n{crate.said}"
    yield from (line for it in entries for line in it.lines())
    if not entries:
        yield f"\n{'A program: no other crate calls it.' if crate.is_program else 'It has no public function.'}"


def counted(crate):
    """Returns how many functions are written `pub fn` with clauses, and how many clauses and terms there are in all."""
    functions, clauses, terms = 0, 0, 0
    for path in crate.files:
        with open(path, encoding="utf-8") as file:
            lines = [it for it in file.read().splitlines() if it and not it.lstrip().startswith("//")]
        functions += len(re.findall(r"\bpub fn \w+[^{]*?\s(?:requires|ensures)\b", "\n".join(lines)))
        clauses += sum(bool(re.match(r" *(ghost )?(requires|ensures)\b", it)) for it in lines)
        # (what says so in a struct is a field of it)
        rest = re.sub(r"^(?:pub(?:\([^)]*\))? )?struct [^;{]*\{.*?^\}", "", "\n".join(lines), flags=re.M | re.S)
        terms += len(re.findall(r"^ *ghost (?!use )", rest, re.M))
    return functions, clauses, terms


def agree(told):
    """Prints what was found and what a second, plainer way counts, and returns whether they are the same."""
    found, plainly = [0, 0, 0], [0, 0, 0]
    for crate, entries in told.items():
        found[0] += sum(it.head.startswith("pub fn") and bool(it.clauses) for it in entries)
        found[1] += sum(len(it.clauses) for module in crate.modules.values() for it in module.all)
        found[2] += sum(len(it.terms) for module in crate.modules.values() for it in module.blocks)
        plainly = [sum(it) for it in zip(plainly, counted(crate))]
    print(f"public functions with clauses: {found[0]} listed, {plainly[0]} counted in the code")
    print(f"clauses, of other functions too: {found[1]} found, {plainly[1]} counted")
    print(f"terms of traits and implementations: {found[2]} found, {plainly[2]} counted")
    return found == plainly


def listed(top):
    """Returns the crates of a tree, each with what the list says of it."""
    with open(f"{top}/crates.txt", encoding="utf-8") as file:
        names = [it.split(":")[0] for it in file.read().splitlines() if it and not it.startswith("#")]
    crates = [Crate(top, name) for name in names if not LEFT_OUT.fullmatch(name)]
    return {it: list(it.entries()) for it in crates}


@functools.lru_cache(maxsize=None)
def text():
    """Returns the list of this tree's contracts."""
    return HEAD + "\n".join(line for it, entries in listed(kit.TOP).items() for line in lines_of(it, entries)) + "\n"
