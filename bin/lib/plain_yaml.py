"""Reads the plain part of YAML in which docs/openapi.yaml is written, so that no library is needed.

That part: mappings and lists by indentation; on one line, mappings in braces, lists in brackets, texts between single
quotes, whole numbers, true and false, and plain texts; texts over several lines behind `|`, line by line, and behind
`>-`, as one line. Comments have lines of their own. Whatever else there is, is refused.
"""
import re

KEY = re.compile(r"([\w$/][\w$/{}-]*|'[^']*'):(?: (.*))?")
PLAIN = re.compile(r"[^\s'\"{}\[\],&*#?|<>=!%@`:-](?:[^:#,{}\[\]]|:(?=\S)|(?<=\S)#)*|-?\d+")
# (a text behind a key may have signs that end one within braces)
WHOLE = re.compile(r"[^\s'\"{}\[\],&*#?|<>=!%@`:-](?:[^:#]|:(?=\S)|(?<=\S)#)*|-?\d+")
FIXED = {"true": True, "false": False, "null": None}


class Unread(ValueError):
    """A line that is not of this part of YAML."""


class Lines:
    """The lines of a text that are still to be read: of each its number, its indentation and what stands there."""

    def __init__(self, text):
        self.all = text.split("\n")
        self.at = 0
        self.skip()

    def skip(self):
        """Goes on to the next line that is neither empty nor a comment."""
        while self.at < len(self.all) and not self.all[self.at].split("#", 1)[0].strip():
            self.at += 1

    def here(self):
        """Returns the indentation of the line and what stands in it, or nothing at the end."""
        if self.at == len(self.all):
            return -1, ""
        line = self.all[self.at]
        return len(line) - len(line.lstrip(" ")), line.strip()

    def next(self):
        self.at += 1
        self.skip()

    def unread(self, why):
        raise Unread(f"line {self.at + 1}: {why}")

    def nested(self, text, indent):
        """Puts what stands behind the dash of an item in the place of its line, so far to the right."""
        self.all[self.at] = " " * indent + text

    def block(self, above):
        """Takes the lines that are further to the right, and returns them without what all have before them."""
        found = []
        self.at += 1
        while self.at < len(self.all) and (not self.all[self.at].strip() or self.here()[0] > above):
            found.append(self.all[self.at])
            self.at += 1
        while found and not found[-1].strip():
            found.pop()
        self.skip()
        least = min((len(it) - len(it.lstrip(" ")) for it in found if it.strip()), default=0)
        return [it[least:] for it in found]


def read(text):
    """Returns what a text says."""
    lines = Lines(text)
    found = node(lines, lines.here()[0])
    if lines.at < len(lines.all):
        lines.unread("it stands too far to the left")
    return found


def node(lines, indent):
    """Returns the mapping or the list whose first line stands here."""
    return items(lines, indent) if lines.here()[1].startswith("- ") else mapping(lines, indent)


def items(lines, indent):
    """Returns the list whose items stand here."""
    found = []
    while lines.here()[0] == indent and lines.here()[1].startswith("- "):
        text = lines.here()[1][2:].lstrip()
        if KEY.fullmatch(text) and not text.startswith("'"):
            lines.nested(text, indent + 2)
            found.append(mapping(lines, indent + 2))
        else:
            found.append(value(text, lines))
            lines.next()
    return found


def mapping(lines, indent):
    """Returns the mapping whose keys stand here."""
    found = {}
    while lines.here()[0] == indent and not lines.here()[1].startswith("- "):
        parts = KEY.fullmatch(lines.here()[1])
        if not parts:
            lines.unread("no key")
        key = parts[1].strip("'")
        if key in found:
            lines.unread(f"the key {key} comes twice")
        found[key] = behind(parts[2], lines, indent)
    if lines.here()[0] > indent:
        lines.unread("it stands too far to the right")
    return found


def behind(text, lines, indent):
    """Returns what stands behind a key, in its line or in those below."""
    if text == "|":
        return "".join(f"{it}\n" for it in lines.block(indent))
    if text == ">-":
        return " ".join(it.strip() for it in lines.block(indent))
    if text:
        found = value(text, lines)
        lines.next()
        return found
    lines.next()
    below = lines.here()[0]
    if below <= indent:
        lines.unread("nothing stands behind the key above")
    return node(lines, below)


def value(text, lines):
    """Returns what stands in a line."""
    if text[0] not in "{['":
        return scalar(text, WHOLE, lines)
    found, rest = flow(text, lines)
    if rest:
        lines.unread(f"more than one value: {rest}")
    return found


def scalar(text, form, lines):
    """Returns a text or a number that stands without signs around it."""
    if not form.fullmatch(text):
        lines.unread(f"no plain text: {text}")
    if text in FIXED:
        return FIXED[text]
    return int(text) if re.fullmatch(r"-?\d+", text) else text


def flow(text, lines):
    """Returns the value at the beginning of a text within one line, and the rest."""
    if text[0] == "'":
        quoted = re.match(r"'((?:[^']|'')*)'", text)
        if not quoted:
            lines.unread("a text without its end")
        return quoted[1].replace("''", "'"), text[quoted.end():].lstrip()
    if text[0] in "{[":
        return several(text[0], text[1:].lstrip(), lines)
    plain = PLAIN.match(text)
    if not plain:
        lines.unread(f"no value: {text}")
    return scalar(plain[0].rstrip(), PLAIN, lines), text[plain.end():].lstrip()


def several(begin, rest, lines):
    """Returns what stands between braces or brackets, and the rest."""
    end, pairs, found = ("}", True, {}) if begin == "{" else ("]", False, [])
    while not rest.startswith(end):
        key, rest = pair(rest, lines) if pairs else (None, rest)
        if not rest:
            lines.unread(f"no {end}")
        one, rest = flow(rest, lines)
        if pairs:
            found[key] = one
        else:
            found.append(one)
        if rest.startswith(","):
            rest = rest[1:].lstrip()
        elif not rest.startswith(end):
            lines.unread(f"neither a comma nor {end}: {rest}")
    return found, rest[1:].lstrip()


def pair(text, lines):
    """Returns a key between braces, and what stands behind it."""
    key = re.match(r"([\w$-]+): +", text)
    if not key:
        lines.unread(f"no key: {text}")
    return key[1], text[key.end():]
