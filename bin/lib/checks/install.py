"""Installs the program below a folder of its own, and looks at all that stands there.

The installed program must run. groff must read the man page without a warning, and the page must name each command and
option. The completion of bash must complete commands, options and files; those of zsh and fish are read by their shells
where these are installed. systemd must find no fault with the unit, where it stands. Under the unit's umask the program
must make files that their user alone may read. Needs `groff`, `bash` and `systemd-analyze`.

Shows: that all that belongs to the program is installed, and that groff, the shells and systemd read it without
complaint; and that what the program makes under the unit's umask its user alone may read.
Cannot show: that the unit starts on a machine of its own.
"""
import os
import re
import shutil
import stat
import subprocess

from lib import desks, helps, installing

NEEDS = ("groff", "bash", "systemd-analyze")
COMPLETED = 'source "$1"; COMP_WORDS=("${@:2}"); COMP_CWORD=$(($# - 2)); _desk; printf "%s\\n" "${COMPREPLY[@]}"'
# words before the place where something is to be completed, which is the last, and what that is completed to
WORDS = {
    ("desk", "res"): ["resolve"],
    ("desk", "--v"): ["--version"],
    ("desk", "open", "--a"): ["--automatic"],
    ("desk", "init", "ba"): ["bank.desk"],
    ("desk", "open", "bank.desk", "ba"): [],
    ("desk", "import", "bank.desk", "ALFA", "or"): ["orders.csv"],
    ("desk", "serve", "--port", "8080", "ba"): ["bank.desk"],
    ("desk", "serve", "--port", "ba"): [],
    ("desk", "help", "wi"): ["withdraw"],
}


def run_tool(*words, **how):
    """Returns how a tool ended, and what it said on either stream."""
    how = {"stdout": subprocess.PIPE, "stderr": subprocess.STDOUT, "text": True, "check": False, **how}
    ran = subprocess.run(words, **how)
    return ran.returncode, ran.stdout


def man_page(prefix, program, sees):
    """groff warns of nothing, and the page names each command and option, each exit status and file."""
    page = f"{prefix}/{installing.PAGE}"
    sees("warnings of groff", run_tool("groff", "-man", "-Tutf8", "-ww", "-z", page), (0, ""))
    if shutil.which("man"):
        env = {**os.environ, "MANWIDTH": "100", "LC_ALL": "C.UTF-8"}
        shown = run_tool("sh", "-c", 'man --warnings -l "$0" > /dev/null', page, env=env)
        sees("warnings of man -l", shown, (0, ""))
    _, text = run_tool("groff", "-man", "-Tascii", "-P-cbou", page)
    names = {*program.each, *(it.name for said in program.each.values() for it in said.options)}
    missing = [it for it in sorted(names) if it not in text]
    sees("words that the man page lacks", missing, [])
    sees("places that are left", "@" in text, False)


def completions(prefix, folder, sees):
    """bash completes each of some words as it must, and the other shells read their files."""
    bash, zsh, fish = (f"{prefix}/{it}" for it in installing.SHELLS)
    for name in ("bank.desk", "orders.csv"):
        with open(f"{folder}/{name}", "wb"):
            pass
    for words, wanted in WORDS.items():
        status, said = run_tool("bash", "-c", COMPLETED, "bash", bash, *words, cwd=folder)
        sees(f"completed: {' '.join(words)}", (status, said.split()), (0, wanted))
    for shell, path in (("bash", bash), ("zsh", zsh), ("fish", fish)):
        if shutil.which(shell):
            sees(f"{shell} -n", run_tool(shell, "-n", path), (0, ""))


def units(prefix, sees):
    """systemd finds no fault with the units, whose programs and man page are the installed ones."""
    env = {**os.environ, "MANPATH": f"{prefix}/share/man"}
    for it in installing.OF_SYSTEMD:
        verified = run_tool("systemd-analyze", "verify", f"{prefix}/{installing.UNITS}/{it}", env=env)
        sees(f"systemd-analyze verify {it}", verified, (0, ""))
    if shutil.which("systemd-sysusers"):
        made = run_tool("systemd-sysusers", "--dry-run", f"{prefix}/{installing.USER}")
        sees("systemd-sysusers", (made[0], "Creating user 'desk'" in made[1]), (0, True))


def removed(prefix, paths, sees):
    """What was installed is removed."""
    gone = []
    installing.uninstall(prefix, gone.append)
    sees("what is removed", (sorted(gone), os.listdir(prefix)), (sorted(paths), []))


def setting(text, name):
    """Returns the value of a setting that a unit has once."""
    found = re.findall(rf"^{name}=(.*)$", text, re.M)
    if len(found) != 1:
        raise desks.Broken(f"the unit has {name} {len(found)} times")
    return found[0]


def modes_made(text, folder, makes):
    """Has a book made in the folder of the unit with this text, as the unit would, and returns the mode of the folder
    and of each file. What makes the book is given its name."""
    state = f"{folder}/state"
    os.mkdir(state)
    os.chmod(state, int(setting(text, "StateDirectoryMode"), 8))
    before = os.umask(int(setting(text, "UMask"), 8))
    try:
        makes(f"{state}/bank.desk")
    finally:
        os.umask(before)
    paths = {"": state, **{it: f"{state}/{it}" for it in sorted(os.listdir(state))}}
    return {name: f"{stat.S_IMODE(os.stat(path).st_mode):o}" for name, path in paths.items()}


def serves(book):
    """Makes a book, and serves an order over it, after which the server is killed: its log is left."""
    desks.new_book(book, desks.KEYS, 150)
    with desks.Server(book, 2) as server:
        server.asked(desks.order(desks.KEYS["ALFA"], "BETA", 1))
        server.kill()


def modes(prefix, folder, sees):
    """What the service makes, its user alone may read."""
    found = modes_made(desks.content(f"{prefix}/{installing.UNIT}").decode(), folder, serves)
    sees("modes of what the service makes", found,
         {"": "700", **dict.fromkeys(("bank.desk", "bank.desk-wal", "bank.desk.lock"), "600")})


def run(_given, report):
    with desks.room() as folder:
        prefix, paths = f"{folder}/usr", []
        installing.install(prefix, paths.append)
        sees = report.sees
        sees("files", sorted(paths), sorted(f"{at}/{it}" for at, _, names in os.walk(prefix) for it in names))
        sees("the version", run_tool(f"{prefix}/{installing.PROGRAM}", "--version"), (0, desks.desk("--version")))
        man_page(prefix, helps.program(desks.desk), sees)
        completions(prefix, folder, sees)
        units(prefix, sees)
        modes(prefix, folder, sees)
        again = []
        installing.install(prefix, again.append)
        sees("a second installation", again, paths)
        removed(prefix, paths, sees)
    shells = [it for it in ("bash", "zsh", "fish") if shutil.which(it)]
    report.sums(f"{len(paths)} files, shells: {', '.join(shells)}; "
                f"{report.right} things as they must be, {report.wrong} not")
