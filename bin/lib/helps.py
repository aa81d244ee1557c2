"""What the help texts of the program say, in parts: the man page and the completions of shells are made from it."""
import re
import typing

OPTION = re.compile(r"(?:(?P<short>-\w), )?(?P<name>--[\w-]+)(?: <(?P<value>\w+)>)?")
# (a line of a list has two blanks before it; one with more goes on with the help of the line before)
ENTRY = re.compile(r"  (?:    )?(?P<shown><\w+>|\[\w+\]|-[^ ]+(?:,? [-<][^ ]+)*|\w[\w-]*)(?:  +(?P<help>.*))?")


class Entry(typing.NamedTuple):
    """A subcommand, an argument or an option, as a list of a help text has it, and what is said of it."""

    shown: str
    help: str


class Option(typing.NamedTuple):
    """An option: its long name, its letter and the name of its value, each with nothing where it has none."""

    name: str
    short: str
    value: str
    help: str


class Help(typing.NamedTuple):
    """The parts of a help text."""

    about: str
    usage: str
    commands: list
    arguments: list
    options: list


class Program(typing.NamedTuple):
    """The help of a program, that of each of its subcommands by its name, and what names its version."""

    whole: Help
    each: dict
    version: str


def listed(lines):
    """Returns the entries of a list."""
    found = []
    for line in lines:
        entry = ENTRY.fullmatch(line)
        if entry:
            found.append(Entry(re.sub(r"^[<[](\w+)[>\]]$", r"\1", entry["shown"]), entry["help"] or ""))
        elif line.strip() and found:
            last = found.pop()
            found.append(Entry(last.shown, f"{last.help} {line.strip()}".strip()))
    return found


def option(entry):
    """Returns an option of a list."""
    parts = OPTION.fullmatch(entry.shown)
    if not parts:
        raise ValueError(f"no option: {entry.shown}")
    return Option(parts["name"], parts["short"] or "", parts["value"] or "", entry.help)


def read(text):
    """Returns the parts of a help text."""
    about, _, rest = text.partition("\nUsage: ")
    usage, *blocks = rest.rstrip("\n").split("\n\n")
    lists = {it.partition(":\n")[0]: listed(it.partition(":\n")[2].split("\n")) for it in blocks}
    unknown = set(lists) - {"Commands", "Arguments", "Options"}
    if not usage or unknown:
        raise ValueError(f"no help text: {text[:200]!r}")
    options = [option(it) for it in lists.get("Options", [])]
    return Help(about.strip(), usage, lists.get("Commands", []), lists.get("Arguments", []), options)


def program(run):
    """Returns the help of a program. The call gives what it prints where it is run with some words."""
    whole = read(run("--help"))
    each = {it.shown: read(run(it.shown, "--help")) for it in whole.commands if it.shown != "help"}
    return Program(whole, each, run("--version").strip())
