"""A program that is compiled from the sources as they are, without a proof. Its version says so, in the place of the
kit that proves the other one."""
import os
import re
import shutil
import tempfile
import time

import kit

PROGRAM = f"{kit.TOP}/out/desk"
SAID = "not proved"
# the crate whose sources have the version, and where in them the kit is named
CRATE, VERSION = "rtgs_cli_arguments", "src/version.rt"
NAMED = re.compile(r'(, tables \d+, )[^,"]+(, commit )')


def marked(text):
    """Returns the text of the version, in which the program is said to be not proved."""
    made, count = NAMED.subn(rf"\1{SAID}\2", text)
    if count != 1:
        raise ValueError(f"the version has {count} places of a kit")
    return made


def mark(folder):
    """Writes the crate that has the version into a folder, so that it says that the program is not proved."""
    shutil.copytree(f"{kit.TOP}/crates/{CRATE}/src", f"{folder}/src")
    path = f"{folder}/{VERSION}"
    with open(path, encoding="utf-8") as it:
        text = marked(it.read())
    with open(path, "w", encoding="utf-8") as it:
        it.write(text)


def compile_program(crate):
    """Compiles the program, of the crate in this folder, in the place of an earlier one."""
    begun, out = time.time(), os.path.dirname(PROGRAM)
    os.makedirs(out, exist_ok=True)
    with tempfile.TemporaryDirectory(dir=out) as room:
        mark(f"{room}/{CRATE}")
        kit.compiled(crate, f"{room}/desk", {CRATE: f"{room}/{CRATE}"})
        # (what is changed while it is compiled is newer than it)
        os.utime(f"{room}/desk", (begun, begun))
        os.replace(f"{room}/desk", PROGRAM)
