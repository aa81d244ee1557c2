"""What bin/install puts where: the program, and all that goes with it."""
import hashlib
import os
import tempfile

import kit
from lib import completions, desks, helps, manual, sources, unproved

DEPLOY = f"{kit.TOP}/deploy"
HANDBOOKS = ("OPERATORS.md", "BANKS.md", "AUDITORS.md", "audit.sql", "SPECIFICATION.md", "openapi.yaml")
CLIENTS = f"{kit.TOP}/bin/lib/clients"
PAGE_FILES, PICTURES = f"{kit.TOP}/console", f"{kit.TOP}/docs/pictures"
DOC, SHARED = "share/doc/desk", "share/desk"
UNITS, PROGRAM, PAGE = "lib/systemd/system", "bin/desk", "share/man/man1/desk.1"
UNIT, BACKUP, CONSOLE = f"{UNITS}/desk.service", "bin/desk-backup", "bin/desk-console"
ORIGIN, LISTED = f"{SHARED}/origin.txt", f"{SHARED}/files.txt"
# files of deploy/ that have the prefix in them, and where they go
OF_SYSTEMD = ("desk.service", "desk-backup.service", "desk-backup.timer")
OF_CONSOLES = ("console-nginx.conf", "console-Caddyfile")
WITH_PREFIX = {**{f"{UNITS}/{it}": it for it in OF_SYSTEMD}, **{f"{SHARED}/{it}": it for it in OF_CONSOLES}}
USER = "lib/sysusers.d/desk.conf"
# a file for each shell, and what makes it
SHELLS = {
    "share/bash-completion/completions/desk": completions.bash,
    "share/zsh/site-functions/_desk": completions.zsh,
    "share/fish/vendor_completions.d/desk.fish": completions.fish,
}
AS_PROGRAM, AS_TEXT = 0o755, 0o644


def with_prefix(text, prefix):
    """Returns a unit with the prefix in its places. systemd reads some signs of a path as something else."""
    if set(prefix) & set(" \t\n\"'\\$%;"):
        raise desks.Broken(f"{prefix!r} has a sign that a unit of systemd cannot have in a path")
    return text.replace("@PREFIX@", prefix)


def read(path):
    """Returns the text of a file."""
    return desks.content(path).decode()


def copied(folder, names, below):
    """Returns the texts of files of a folder, by the paths that they get below the prefix."""
    return {f"{below}/{it}": read(f"{folder}/{it}") for it in names}


def origin(version, program):
    """Returns what an auditor builds again to compare a program of this version: the commit, the kit, and the digest of
    its bytes."""
    digest = hashlib.sha256(program).hexdigest()
    said = {"commit": sources.commit(version), "kit": kit.version(), "sha256": digest}
    return "".join(f"{name} {it}\n" for name, it in said.items())


def refuse_one_not_proved(version):
    """Refuses a program that says that it is not proved."""
    if unproved.SAID in version:
        raise desks.Broken(f"{version}: a program that is not proved is not installed")


def files(prefix, run):
    """Returns what is installed: for each path below the prefix its bytes and its mode. The call runs the program."""
    program, built = helps.program(run), desks.content(desks.DESK)
    refuse_one_not_proved(program.version)
    texts = {
        PAGE: manual.made(program, f"{prefix}/{DOC}"),
        ORIGIN: origin(program.version, built),
        **{path: with_prefix(read(f"{DEPLOY}/{it}"), prefix) for path, it in WITH_PREFIX.items()},
        USER: read(f"{DEPLOY}/desk.sysusers"),
        **{path: make("desk", program) for path, make in SHELLS.items()},
        **copied(DEPLOY, ("nginx.conf", "Caddyfile"), SHARED),
        **copied(PAGE_FILES, os.listdir(PAGE_FILES), f"{SHARED}/console"),
        **copied(f"{kit.TOP}/docs", HANDBOOKS, DOC),
        **copied(kit.TOP, ("CHANGELOG.md",), DOC),
        **copied(CLIENTS, os.listdir(CLIENTS), f"{DOC}/clients"),
    }
    backup = with_prefix(read(f"{DEPLOY}/desk-backup"), prefix).encode()
    console = read(f"{kit.TOP}/{CONSOLE}").encode()
    found = {PROGRAM: (built, AS_PROGRAM), BACKUP: (backup, AS_PROGRAM), CONSOLE: (console, AS_PROGRAM)}
    found |= {path: (text.encode(), AS_TEXT) for path, text in texts.items()}
    found |= {f"{DOC}/pictures/{it}": (desks.content(f"{PICTURES}/{it}"), AS_TEXT) for it in os.listdir(PICTURES)}
    return found | {LISTED: ("".join(f"{it}\n" for it in sorted([*found, LISTED])).encode(), AS_TEXT)}


def put(path, content, mode):
    """Makes a file whole, in the place of one that is there, which a run that goes on keeps as it was."""
    folder = os.path.dirname(path)
    make_folder(folder)
    at, made = tempfile.mkstemp(dir=folder)
    try:
        with os.fdopen(at, "wb") as it:
            it.write(content)
        os.chmod(made, mode)
        os.replace(made, path)
    except OSError:
        os.remove(made)
        raise


def make_folder(path):
    """Makes a folder and those above it that are missing, for all to read, whatever the umask."""
    if not os.path.isdir(path):
        make_folder(os.path.dirname(path))
        os.mkdir(path)
        os.chmod(path, AS_PROGRAM)


def install(prefix, told, root=""):
    """Installs all below a prefix, and tells each path. With a root it is put below that, for a package: the files name
    the prefix alone."""
    prefix, root = os.path.abspath(prefix), os.path.abspath(root) if root else ""
    for path, (content, mode) in sorted(files(prefix, desks.desk).items()):
        put(f"{root}{prefix}/{path}", content, mode)
        told(f"{root}{prefix}/{path}")


def listed(below):
    """Returns what was installed below a prefix, as the list says that stands there."""
    path = f"{below}/{LISTED}"
    if not os.path.exists(path):
        raise desks.Broken(f"{path} is missing: nothing is installed there, or by a version that wrote no list")
    names = read(path).splitlines()
    for it in names:
        if it.startswith("/") or ".." in it.split("/"):
            raise desks.Broken(f"{path} names {it!r}")
    return names


def uninstall(prefix, told, root=""):
    """Removes what was installed below a prefix, and the folders that are empty then, and tells each path."""
    below = (os.path.abspath(root) if root else "") + os.path.abspath(prefix)
    # (the list itself last, so that what was not removed can be removed by another run)
    for it in sorted(listed(below), key=lambda it: (it == LISTED, it)):
        if os.path.lexists(f"{below}/{it}"):
            os.remove(f"{below}/{it}")
            told(f"{below}/{it}")
        remove_empty(below, os.path.dirname(it))


def remove_empty(below, folder):
    """Removes a folder below this one, and those above it there, as far as they are empty."""
    while folder and os.path.isdir(f"{below}/{folder}") and not os.listdir(f"{below}/{folder}"):
        os.rmdir(f"{below}/{folder}")
        folder = os.path.dirname(folder)
