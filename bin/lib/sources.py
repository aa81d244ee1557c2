"""The sources of the commit that is checked out, with its name in them: by it the program names its commit."""
import os
import re
import shutil
import subprocess

import kit
from lib import desks, evidence

# how a program that was built from such sources ends its version
NAMED = re.compile(r"commit ([0-9a-f]{40})$")


def is_checkout():
    """Returns whether this tree is a checkout of git. Sources that git wrote into a folder are none."""
    return os.path.exists(f"{kit.TOP}/.git")


def write(folder):
    """Writes the sources of the commit that is checked out into a folder, without what was changed since."""
    packed = subprocess.run(["git", "archive", "HEAD"], cwd=kit.TOP, stdout=subprocess.PIPE, check=False)
    if packed.returncode:
        raise desks.Broken("git gives no sources of the commit")
    subprocess.run(["tar", "-x", "-C", folder], input=packed.stdout, check=True)


def kept():
    """Returns the folder that has the sources of the commit that is checked out, and what was built of them before.
    They are written there where they are not; those of other commits are removed."""
    name = evidence.output("git", "rev-parse", "HEAD")
    above = f"{kit.TOP}/out/installed"
    os.makedirs(above, exist_ok=True)
    for it in set(os.listdir(above)) - {name}:
        shutil.rmtree(f"{above}/{it}")
    if not os.path.isdir(f"{above}/{name}"):
        # (whole at once: a run that was ended leaves no part under that name)
        os.mkdir(f"{above}/{name}.part")
        write(f"{above}/{name}.part")
        os.rename(f"{above}/{name}.part", f"{above}/{name}")
    return f"{above}/{name}"


def commit(version):
    """Returns the commit of a program, by its version: the one that it names, or else that of the tree."""
    found = NAMED.search(version)
    return found[1] if found else evidence.commit()
