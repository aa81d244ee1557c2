"""The man page of the program: docs/desk.1.in, with what the program's help texts say in the places left for it."""
import re

import kit

PAGE = f"{kit.TOP}/docs/desk.1.in"
EXAMPLE = re.compile(r"^\.EX\n(.*?)^\.EE$", re.M | re.S)
# how groff writes a sign that it would else take for something of its own
SIGNS = {"\\": "\\e", "-": "\\-"}


def page():
    """Returns the page with its places."""
    with open(PAGE, encoding="utf-8") as it:
        return it.read()


def escaped(text):
    """Returns a text as groff prints it sign by sign, also where it begins a line."""
    return re.sub(r"^(?=[.'])", r"\\&", text.translate(str.maketrans(SIGNS)), flags=re.M)


def unescaped(text):
    """Returns the text that groff prints of what was escaped."""
    for sign, written in sorted(SIGNS.items(), key=lambda it: it[0] == "\\"):
        text = text.replace(written, sign)
    return text.replace("\\&", "")


def examples(text):
    """Returns what a page shows as examples, as it is printed."""
    return "\n".join(map(unescaped, EXAMPLE.findall(text)))


def marked(usage):
    """Returns a usage with its words in bold, and the names of its values in italics, one that may be left out too."""
    return " ".join(map(marked_word, usage.split()))


def marked_word(it):
    """Returns a word of a usage, in bold or in italics."""
    if it.startswith("<"):
        return f"\\fI{escaped(it.strip('<>'))}\\fR"
    if it.startswith("[") and it != "[OPTIONS]":
        return f"[\\fI{escaped(it.strip('[]'))}\\fR]"
    return f"\\fB{escaped(it)}\\fR"


def tagged(tag, text):
    """Returns a paragraph with a tag."""
    return f".TP\n{tag}\n{escaped(text)}"


def option(it):
    """Returns the paragraph of an option."""
    names = ", ".join(f"\\fB{escaped(name)}\\fR" for name in (it.short, it.name) if name)
    return tagged(f"{names} \\fI{it.value}\\fR" if it.value else names, it.help)


def command(name, said):
    """Returns the part of a subcommand: its usage, what it does, its arguments and its options, without its help."""
    parts = [f".SS {escaped(name)}", marked(said.usage), ".PP", escaped(f"{said.about}.")]
    parts += [tagged(f"\\fI{it.shown}\\fR", it.help) for it in said.arguments]
    parts += [option(it) for it in said.options if it.name != "--help"]
    return "\n".join(parts)


def made(program, doc):
    """Returns the man page of a program whose handbooks stand in a folder."""
    places = {
        "VERSION": program.version.split(",")[0],
        "ABOUT": escaped(program.whole.about[0].lower() + program.whole.about[1:]),
        "SYNOPSIS": "\n".join(marked(it.usage) for it in program.each.values()),
        "COMMANDS": "\n".join(command(*it) for it in program.each.items()),
        "OPTIONS": "\n".join(map(option, program.whole.options)),
        "DOC": escaped(doc),
    }
    return re.sub(r"@([A-Z]+)@", lambda it: places[it[1]], page())
